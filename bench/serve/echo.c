/* A bare UDP echo on loopback: one recvfrom and one sendto a datagram, and nothing else.
 *
 * usage: echo PORT
 *
 * It sets QR (RFC 1035 4.1.1), so that dnsperf takes what comes back for a reply. Where the receive times out (every
 * 200 milliseconds, as the server under test does) it waits again.
 */
#include <arpa/inet.h>
#include <stdio.h>
#include <stdlib.h>
#include <sys/socket.h>
#include <sys/time.h>

int main(int argc, char **argv) {
    if (argc != 2) {
        fprintf(stderr, "usage: echo PORT\n");
        return 2;
    }
    int s = socket(AF_INET, SOCK_DGRAM, 0);
    struct sockaddr_in here = {.sin_family = AF_INET, .sin_port = htons((unsigned short)atoi(argv[1]))};
    here.sin_addr.s_addr = htonl(INADDR_LOOPBACK);
    struct timeval wait = {.tv_sec = 0, .tv_usec = 200000};
    if (s < 0 || setsockopt(s, SOL_SOCKET, SO_RCVTIMEO, &wait, sizeof wait) != 0 ||
        bind(s, (struct sockaddr *)&here, sizeof here) != 0) {
        perror("echo");
        return 1;
    }
    static unsigned char octets[16385];
    for (;;) {
        struct sockaddr_in from;
        socklen_t room = sizeof from;
        ssize_t count = recvfrom(s, octets, sizeof octets, 0, (struct sockaddr *)&from, &room);
        if (count < 0) {
            continue;
        }
        if (count > 2) {
            octets[2] |= 0x80;
        }
        sendto(s, octets, (size_t)count, 0, (struct sockaddr *)&from, room);
    }
}
