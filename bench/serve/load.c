/* Asks a server on loopback for the names of a file, as fast as it answers.
 *
 * usage: load PORT FILE SECONDS OPEN [COUNT]
 *
 * FILE is one for dnsperf: a line is a name and its type, which has to be A. An address may follow: then a good reply is
 * one that ends with it. OPEN questions are kept open (at most 1024); they are sent, and their replies taken, many in
 * one call of the system, so that the server has a question waiting at any time. It ends after SECONDS or COUNT
 * questions, and takes the replies to what is open then. Prints how many replies came, how many of them were good
 * (NOERROR, with the question in the file's spelling), the seconds and how many questions were sent. A question without
 * a reply for half a second is counted as lost.
 */
#define _GNU_SOURCE
#include <arpa/inet.h>
#include <limits.h>
#include <poll.h>
#include <stdio.h>
#include <stdlib.h>
#include <string.h>
#include <sys/socket.h>
#include <time.h>

enum { MOST = 1024, LONGEST = 300, ROOM = 600 };

struct question {
    int length, has_address;
    unsigned char octets[LONGEST], address[4];
};

static struct question *list;
static long listed;

static void read_list(const char *path) {
    FILE *file = fopen(path, "r");
    static char line[1024];
    long room = 0;
    if (file == NULL) {
        perror(path);
        exit(1);
    }
    while (fgets(line, sizeof line, file) != NULL) {
        if (listed == room) {
            room = room * 2 + 1024;
            list = realloc(list, sizeof *list * (size_t)room);
        }
        struct question *q = &list[listed++];
        memcpy(q->octets, "\0\0\1\0\0\1\0\0\0\0\0\0", 12);
        q->length = 12;
        for (char *label = strtok(line, " \t\r\n"), *at = label; *at != 0;) {
            char *dot = strchr(at, '.');
            int count = (int)(dot != NULL ? dot - at : (long)strlen(at));
            if (count == 0 || q->length + count > 260) break;
            q->octets[q->length++] = (unsigned char)count;
            memcpy(q->octets + q->length, at, (size_t)count);
            q->length += count;
            at += count + (dot != NULL);
        }
        memcpy(q->octets + q->length, "\0\0\1\0\1", 5);
        q->length += 5;
        strtok(NULL, " \t\r\n");
        const char *address = strtok(NULL, " \t\r\n");
        q->has_address = address != NULL && inet_pton(AF_INET, address, q->address) == 1;
    }
    fclose(file);
}

static double now(void) {
    struct timespec t;
    clock_gettime(CLOCK_MONOTONIC, &t);
    return (double)t.tv_sec + (double)t.tv_nsec / 1e9;
}

static unsigned char sent[MOST][LONGEST], taken[MOST][ROOM];
static struct mmsghdr outgoing[MOST], incoming[MOST];
static struct iovec outgoing_at[MOST], incoming_at[MOST];
static long next, replies, good, lost, asked;

static int prepare(int count) {
    for (int i = 0; i < count; i++) {
        const struct question *q = &list[next % listed];
        memcpy(sent[i], q->octets, (size_t)q->length);
        sent[i][0] = (unsigned char)(next >> 8);
        sent[i][1] = (unsigned char)next;
        outgoing_at[i] = (struct iovec){sent[i], (size_t)q->length};
        outgoing[i].msg_hdr = (struct msghdr){.msg_iov = &outgoing_at[i], .msg_iovlen = 1};
        next++;
    }
    return count;
}

/* Whether a reply is NOERROR, with its question as it was sent, and its address where the file has one. */
static int is_good(const unsigned char *reply, unsigned length) {
    if (length < 12 || (reply[2] & 128) == 0 || (reply[3] & 15) != 0) return 0;
    /* The last question that was sent with this identifier. */
    long id = reply[0] * 256 + reply[1], number = next - 1 - ((next - 1 - id) & 65535);
    if (number < 0) return 0;
    const struct question *q = &list[number % listed];
    if (length < (unsigned)q->length || memcmp(reply + 12, q->octets + 12, (size_t)q->length - 12) != 0) return 0;
    return !q->has_address || (length > (unsigned)q->length && memcmp(reply + length - 4, q->address, 4) == 0);
}

static int take(int s) {
    for (int i = 0; i < MOST; i++) {
        incoming_at[i] = (struct iovec){taken[i], ROOM};
        incoming[i].msg_hdr = (struct msghdr){.msg_iov = &incoming_at[i], .msg_iovlen = 1};
    }
    int count = recvmmsg(s, incoming, MOST, MSG_DONTWAIT, NULL);
    for (int i = 0; i < count; i++) {
        replies++;
        good += is_good(taken[i], incoming[i].msg_len);
    }
    return count < 0 ? 0 : count;
}

int main(int argc, char **argv) {
    if (argc != 5 && argc != 6) {
        fprintf(stderr, "usage: load PORT FILE SECONDS OPEN [COUNT]\n");
        return 2;
    }
    int s = socket(AF_INET, SOCK_DGRAM, 0), room = 1 << 22, most = atoi(argv[4]);
    struct sockaddr_in there = {.sin_family = AF_INET, .sin_port = htons((unsigned short)atoi(argv[1]))};
    there.sin_addr.s_addr = htonl(INADDR_LOOPBACK);
    read_list(argv[2]);
    setsockopt(s, SOL_SOCKET, SO_RCVBUF, &room, sizeof room);
    if (most < 1 || most > MOST || listed == 0 || connect(s, (struct sockaddr *)&there, sizeof there) != 0) {
        fprintf(stderr, "load: OPEN is 1 to %d, and the file has names\n", MOST);
        return 1;
    }
    double began = now(), end = began + atof(argv[3]), heard = began;
    long left = argc == 6 ? atol(argv[5]) : LONG_MAX;
    int open = 0;
    while ((left > 0 && now() < end) || open > 0) {
        int room_for = left < most - open ? (int)left : most - open;
        if (now() < end && room_for > 0 && (room_for >= most / 4 || room_for == left || open == 0)) {
            int count = sendmmsg(s, outgoing, (unsigned)prepare(room_for), 0);
            open += count < 0 ? 0 : count;
            left -= count < 0 ? 0 : count;
            asked += count < 0 ? 0 : count;
        }
        int count = take(s);
        open -= count;
        if (count > 0) {
            heard = now();
        } else if (now() - heard > 0.5) {
            lost += open;
            open = 0;
            heard = now();
        }
        if (open < 0) open = 0;
    }
    double took = now() - began;
    printf("replies %ld good %ld lost %ld seconds %.6f asked %ld\n", replies, good, lost, took, asked);
    return 0;
}
