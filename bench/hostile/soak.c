/* Sends mutated messages to a running site at full speed, while a client that behaves well goes on asking.
 *
 * usage: soak PID SITE UPSTREAM PEER LIST SECONDS DATAGRAMS SEED FORGED paced|flood
 *
 * PID is the site's process; SITE its port on loopback, UPSTREAM and PEER those of its only upstream and peer, which
 * this program takes. LIST is a file of datagrams in hexadecimal, one a line. It stops after SECONDS or DATAGRAMS,
 * whichever comes first. FORGED is how many different frames with live forged observations the peer has. See README.md.
 */
#define _GNU_SOURCE
#include <arpa/inet.h>
#include <errno.h>
#include <fcntl.h>
#include <poll.h>
#include <stdint.h>
#include <stdio.h>
#include <stdlib.h>
#include <string.h>
#include <sys/socket.h>
#include <time.h>
#include <unistd.h>

enum { LONGEST = 20000, BURST = 32, WINDOW = 4, ASKERS = 8, KNOWN = 64, TRIES = 10 };

struct message {
    int length;
    unsigned char octets[LONGEST];
};

static struct message *list;
static int listed, frames[4096], framed, questions[4096], questioned, replies[4096], replied;
static int client, upstream, peer, askers[ASKERS];
static struct sockaddr_in site;
static uint64_t word;
static uint32_t started, forged_pool;
static int flooding;

/* What was sent, and what came back. */
static struct {
    long anyone, peer, passed_over, upstream, solicited, queries, frames, replies;
    long asked, right, otherwise, unanswered, retried;
    long fresh, fresh_right, fresh_failed, fresh_otherwise, fresh_unanswered;
    double slowest;
} seen;

/* xorshift64*. */
static uint32_t any(uint32_t below) {
    word ^= word >> 12;
    word ^= word << 25;
    word ^= word >> 27;
    return (uint32_t)((word * 2685821657736338717ull) >> 33) % below;
}

static double now(void) {
    struct timespec t;
    clock_gettime(CLOCK_MONOTONIC, &t);
    return (double)t.tv_sec + (double)t.tv_nsec / 1e9;
}

static void fail(const char *what) {
    perror(what);
    exit(1);
}

static int socket_at(int port) {
    int s = socket(AF_INET, SOCK_DGRAM | SOCK_NONBLOCK, 0);
    struct sockaddr_in here = {.sin_family = AF_INET, .sin_port = htons((uint16_t)port)};
    here.sin_addr.s_addr = htonl(INADDR_LOOPBACK);
    int room = 1 << 22;
    if (s < 0 || bind(s, (struct sockaddr *)&here, sizeof here) != 0) {
        fail("bind");
    }
    setsockopt(s, SOL_SOCKET, SO_RCVBUF, &room, sizeof room);
    return s;
}

static void sort_in(int at) {
    struct message *m = &list[at];
    if (m->length > 5 && memcmp(m->octets, "DG", 2) == 0) {
        if (framed < 4096) frames[framed++] = at;
    } else if (m->length >= 17 && m->octets[4] == 0 && m->octets[5] == 1) {
        if (m->octets[2] < 128 && questioned < 4096) questions[questioned++] = at;
        if (m->octets[2] >= 128 && replied < 4096) replies[replied++] = at;
    }
}

static void read_list(const char *path) {
    FILE *file = fopen(path, "r");
    static char line[2 * LONGEST + 16];
    if (file == NULL) fail(path);
    list = malloc(sizeof *list * 8192);
    while (listed < 8192 && fgets(line, sizeof line, file) != NULL) {
        struct message *m = &list[listed];
        unsigned int octet;
        m->length = 0;
        for (char *at = line; sscanf(at, "%2x", &octet) == 1; at += 2) {
            m->octets[m->length++] = (unsigned char)octet;
        }
        sort_in(listed++);
    }
    fclose(file);
    if (framed == 0 || questioned == 0 || replied == 0) {
        fprintf(stderr, "the list has no frame, no question or no reply\n");
        exit(1);
    }
}

static void put_short(unsigned char *at, uint32_t n) {
    at[0] = (unsigned char)(n >> 8);
    at[1] = (unsigned char)n;
}

static void put_long(unsigned char *at, uint32_t n) {
    put_short(at, n >> 16);
    put_short(at + 2, n);
}

/* One change of a message: cut off, an octet replaced, a count, a length or a pointer that lies, something behind it,
 * or the rest of another one. */
static void change(struct message *m) {
    static const unsigned char odd[] = {0x00, 0x3f, 0x40, 0xc0, 0xff};
    static const uint32_t lies[] = {0, 1, 2, 3, 4, 255, 256, 512, 8192, 16384, 32768, 65535};
    if (m->length == 0) return;
    int at = (int)any((uint32_t)m->length);
    switch (any(9)) {
    case 0: m->length = at; break;
    case 1: m->octets[at] = odd[any(5)]; break;
    case 2: m->octets[at] = (unsigned char)any(256); break;
    case 3: m->octets[at] ^= (unsigned char)(1 << any(8)); break;
    case 4: if (m->length >= 12) put_short(m->octets + 4 + 2 * any(4), lies[any(12)]); break;
    case 5: if (at + 2 <= m->length) put_short(m->octets + at, lies[any(12)]); break;
    case 6: if (at + 2 <= m->length) put_short(m->octets + at, 0xc000 + any((uint32_t)m->length + 4)); break;
    case 7:
        for (uint32_t more = any(64); more > 0 && m->length < 700; more--) {
            m->octets[m->length++] = (unsigned char)any(256);
        }
        break;
    default: {
        const struct message *other = &list[any((uint32_t)listed)];
        int from = other->length > 0 ? (int)any((uint32_t)other->length) : 0;
        int rest = other->length - from;
        if (rest > 600) rest = 600;
        memcpy(m->octets + at, other->octets + from, (size_t)rest);
        m->length = at + rest;
    }
    }
}

static void copy(struct message *to, int at) {
    to->length = list[at].length;
    memcpy(to->octets, list[at].octets, (size_t)list[at].length);
}

static void change_some(struct message *m) {
    for (uint32_t times = any(4); times > 0; times--) change(m);
}

/* A frame of one to four live observations at names below "forged.", some with a change: one of a bounded number. */
static void forge(struct message *m) {
    uint64_t kept = word;
    word = (uint64_t)any(forged_pool) * 0x9e3779b97f4a7c15ull + 0x1234567;
    uint32_t count = 1 + any(4);
    unsigned char *at = m->octets;
    memcpy(at, "DG\1", 3);
    put_short(at + 3, count);
    at += 5;
    for (uint32_t i = 0; i < count; i++) {
        *at++ = 3;
        *at++ = (unsigned char)(1 + any(3));
        put_long(at, 0);
        put_long(at + 4, started + any(16));
        put_long(at + 8, 1 + any(86400));
        at += 12;
        at += sprintf((char *)at, "%cf%04u%cforged", 5, any(10000), 6) + 1;
        put_short(at, 1);
        put_short(at + 2, 1);
        put_short(at + 4, 4);
        put_long(at + 6, any(1u << 31));
        at += 10;
    }
    m->length = (int)(at - m->octets);
    if (any(2) == 0) change(m);
    word = kept;
}

/* Whether a frame may hold a flush or a name error of the root: a site has to believe its peer that no name is left. */
static int takes_all(const struct message *m) {
    const unsigned char *octets = m->octets;
    for (int at = 5; at + 17 <= m->length; at++) {
        int is_kind = octets[at] == 1 || octets[at] == 4, is_rank = octets[at + 1] >= 1 && octets[at + 1] <= 3;
        int is_stamp = octets[at + 2] == 0 && octets[at + 3] == 0, is_life = octets[at + 10] == 0;
        if (is_kind && is_rank && is_stamp && is_life && memcmp(octets + at + 14, "\0\0\0", 3) == 0) return 1;
    }
    return 0;
}

static void make_frame(struct message *m) {
    if (any(2) == 0) {
        forge(m);
    } else {
        copy(m, frames[any((uint32_t)framed)]);
        change_some(m);
    }
}

static void make(struct message *m, int *from) {
    uint32_t who = any(10);
    if (who < 6) {
        *from = askers[any(ASKERS)];
        copy(m, any(3) > 0 ? questions[any((uint32_t)questioned)] : (int)any((uint32_t)listed));
        change_some(m);
        seen.anyone++;
    } else if (who < 8) {
        *from = peer;
        for (make_frame(m); takes_all(m); make_frame(m)) seen.passed_over++;
        seen.peer++;
    } else {
        *from = upstream;
        copy(m, any(4) > 0 ? replies[any((uint32_t)replied)] : (int)any((uint32_t)listed));
        change_some(m);
        seen.upstream++;
    }
    /* Long ones are rare, as a socket's buffer holds few of them. */
    if (m->length > 1000 && any(64) > 0) m->length = 1000;
}

static void send_to_site(int from, const unsigned char *octets, int length) {
    while (sendto(from, octets, (size_t)length, 0, (struct sockaddr *)&site, sizeof site) < 0) {
        if (errno != EAGAIN && errno != ENOBUFS && errno != ECONNREFUSED && errno != EINTR) fail("sendto");
        struct pollfd wait = {.fd = from, .events = POLLOUT};
        poll(&wait, 1, 10);
    }
}

/* A burst of datagrams; those of one socket that follow each other could go in one call, but one call each is enough to
 * keep the site busy. */
static void burst(void) {
    static struct message m;
    for (int i = 0; i < BURST; i++) {
        int from;
        make(&m, &from);
        send_to_site(from, m.octets, m.length);
    }
}

/* A question for a known name (number below KNOWN) or a fresh one, type A. */
static int ask_for(unsigned char *octets, uint32_t id, uint32_t number) {
    put_short(octets, id);
    memcpy(octets + 2, "\1\0\0\1\0\0\0\0\0\0", 10);
    int name = sprintf((char *)octets + 12, "%cw%08u%cbehaved", 9, number, 7);
    memcpy(octets + 12 + name, "\0\0\1\0\1", 5);
    return 12 + name + 5;
}

static uint32_t address_of(uint32_t number) {
    return 0xc6120000u + number % 131072;
}

static int question_end(const unsigned char *octets, int length) {
    int at = 12;
    while (at < length && octets[at] != 0 && octets[at] < 64) at += 1 + octets[at];
    return at < length && octets[at] == 0 && at + 5 <= length ? at + 5 : -1;
}

/* Answers the site's queries: for a name below "behaved." as it should be, for others mostly with a failure, and
 * sometimes with a real reply that was changed. For the root always with a failure: a site has to believe a name error. */
static void serve_upstream(void) {
    static unsigned char octets[LONGEST];
    static struct message m;
    for (;;) {
        ssize_t length = recv(upstream, octets, sizeof octets, 0);
        if (length < 0) return;
        seen.queries++;
        int end = question_end(octets, (int)length);
        if (end < 0) continue;
        unsigned int number;
        octets[2] = 0x85;
        octets[3] = 0x80;
        if (end == 12 + 19 + 4 && octets[12] == 9 && memcmp(octets + 22, "\7behaved", 8) == 0 &&
            sscanf((char *)octets + 14, "%8u", &number) == 1) {
            put_short(octets + 6, 1);
            memcpy(octets + end, "\xc0\x0c\0\1\0\1\0\1\x51\x80\0\4", 12);
            put_long(octets + end + 12, address_of(number));
            send_to_site(upstream, octets, end + 16);
        } else if (octets[12] != 0 && any(64) == 0) {
            copy(&m, replies[any((uint32_t)replied)]);
            int other = question_end(m.octets, m.length);
            if (other > 0 && m.length - other < 400) {
                memmove(m.octets + end, m.octets + other, (size_t)(m.length - other));
                memcpy(m.octets + 12, octets + 12, (size_t)(end - 12));
                m.length += end - other;
            }
            memcpy(m.octets, octets, 2);
            if (any(4) > 0) change(&m);
            send_to_site(upstream, m.octets, m.length);
            seen.solicited++;
        } else {
            octets[3] = 0x82;
            send_to_site(upstream, octets, end);
        }
    }
}

static void drain(int s, long *count) {
    static unsigned char octets[LONGEST];
    while (recv(s, octets, sizeof octets, 0) >= 0) ++*count;
}

/* What the client waits for, by the place of its id. */
static struct waiting {
    int open, tries;
    uint32_t id, number;
    double sent, first;
} waits[256];

static uint32_t asked_so_far, next_fresh = KNOWN;

static void ask(struct waiting *w) {
    unsigned char octets[64];
    int length = ask_for(octets, w->id, w->number);
    w->sent = now();
    send_to_site(client, octets, length);
}

/* Asks for a name, in a place that is free; at most a few are taken at any time. */
static void begin(uint32_t number) {
    uint32_t place = 0;
    while (waits[place].open) place++;
    struct waiting *w = &waits[place];
    *w = (struct waiting){.open = 1, .id = (++asked_so_far % 256) * 256 + place, .number = number, .first = now()};
    if (number < KNOWN) seen.asked++;
    else seen.fresh++;
    ask(w);
}

static void settle(struct waiting *w, const unsigned char *octets, int length) {
    unsigned char address[4];
    put_long(address, address_of(w->number));
    int code = octets[3] & 15;
    int good = code == 0 && octets[2] >= 128 && length > 16 && memcmp(octets + length - 4, address, 4) == 0;
    double took = now() - w->first;
    if (took > seen.slowest) seen.slowest = took;
    w->open = 0;
    if (w->number < KNOWN) {
        if (good) seen.right++;
        else seen.otherwise++;
    } else if (good) seen.fresh_right++;
    else if (code == 2) seen.fresh_failed++;
    else seen.fresh_otherwise++;
}

static void take_answers(void) {
    static unsigned char octets[LONGEST];
    for (;;) {
        ssize_t length = recv(client, octets, sizeof octets, 0);
        if (length < 0) return;
        if (length < 12) continue;
        uint32_t id = (uint32_t)octets[0] * 256 + octets[1];
        struct waiting *w = &waits[id % 256];
        if (w->open && w->id == id) settle(w, octets, (int)length);
    }
}

/* Asks again what was not answered in time, as a client does. */
static void retry(void) {
    double t = now();
    for (int i = 0; i < 256; i++) {
        struct waiting *w = &waits[i];
        if (!w->open || t - w->sent < (w->number < KNOWN ? 0.2 : 1.0)) continue;
        if (++w->tries >= TRIES) {
            w->open = 0;
            if (w->number < KNOWN) seen.unanswered++;
            else seen.fresh_unanswered++;
            continue;
        }
        seen.retried++;
        ask(w);
    }
}

/* How many questions wait, for known names or for fresh ones. */
static int open_of(int fresh) {
    int count = 0;
    for (int i = 0; i < 256; i++) count += waits[i].open && (waits[i].number >= KNOWN) == fresh;
    return count;
}

static void turn(void) {
    serve_upstream();
    take_answers();
    drain(peer, &seen.frames);
    for (int i = 0; i < ASKERS; i++) drain(askers[i], &seen.replies);
}

/* Until fewer questions for known names are open. */
static void wait_for(int open) {
    double checked = now();
    while (open_of(0) > open) {
        struct pollfd wait[2] = {{.fd = client, .events = POLLIN}, {.fd = upstream, .events = POLLIN}};
        poll(wait, 2, 20);
        turn();
        if (now() - checked > 0.05) {
            retry();
            checked = now();
        }
    }
}

static long resident(int pid) {
    char path[64], line[256];
    long found = -1;
    sprintf(path, "/proc/%d/status", pid);
    FILE *file = fopen(path, "r");
    if (file == NULL) return -1;
    while (fgets(line, sizeof line, file) != NULL) {
        if (sscanf(line, "VmRSS: %ld", &found) == 1) break;
    }
    fclose(file);
    return found;
}

static double cpu_of(int pid) {
    char path[64], line[1024];
    unsigned long user = 0, system = 0;
    sprintf(path, "/proc/%d/stat", pid);
    FILE *file = fopen(path, "r");
    if (file == NULL) return 0;
    if (fgets(line, sizeof line, file) != NULL) {
        sscanf(strrchr(line, ')') + 1, " %*c %*d %*d %*d %*d %*d %*u %*u %*u %*u %*u %lu %lu", &user, &system);
    }
    fclose(file);
    return (double)(user + system) / (double)sysconf(_SC_CLK_TCK);
}

/* How many datagrams the system dropped before the site, as its buffer was full. */
static long dropped(void) {
    char line[512], want[32];
    long found = 0;
    sprintf(want, "0100007F:%04X 00000000:0000", ntohs(site.sin_port));
    FILE *file = fopen("/proc/net/udp", "r");
    if (file == NULL) return -1;
    while (fgets(line, sizeof line, file) != NULL) {
        char *last = strrchr(line, ' ');
        if (strstr(line, want) != NULL) {
            while (last > line && last[1] <= ' ') {
                *last = 0;
                last = strrchr(line, ' ');
            }
            found = atol(last);
        }
    }
    fclose(file);
    return found;
}

static long sent(void) {
    return seen.anyone + seen.peer + seen.upstream + seen.solicited;
}

static void tell(int pid, double began) {
    printf("  after %.0f s: sent %ld, VmRSS %ld KiB, processor %.1f s, answered %ld of %ld\n", now() - began, sent(),
           resident(pid), cpu_of(pid), seen.right + seen.otherwise, seen.asked);
    fflush(stdout);
}

static void run(int pid, double seconds, long most, double began) {
    double told = began;
    long told_at = 0;
    for (long round = 0; sent() < most && now() - began < seconds; round++) {
        burst();
        if (open_of(0) < WINDOW) begin((uint32_t)round % KNOWN);
        if (round % 32 == 0 && open_of(1) < 2 * WINDOW) begin(next_fresh++);
        turn();
        if (!flooding) wait_for(WINDOW - 1);
        else if (round % 64 == 0) retry();
        int ended = round % 64 == 0 && resident(pid) < 0;
        if (now() - told > seconds / 8 || sent() - told_at > most / 8 || ended) {
            tell(pid, began);
            told = now();
            told_at = sent();
        }
        if (ended) return;
    }
    wait_for(0);
    double end = now();
    while (open_of(1) > 0 && now() - end < 10) {
        turn();
        retry();
        usleep(2000);
    }
}

static void report(int pid, double began, long before) {
    printf("sent %ld in %.1f s: %ld from anyone, %ld from the peer, %ld from the upstream, %ld replies to its queries\n",
           sent(), now() - began, seen.anyone, seen.peer, seen.upstream, seen.solicited);
    printf("frames passed over, as they could take all names away: %ld\n", seen.passed_over);
    printf("dropped by the system before the site: %ld\n", dropped());
    printf("the site sent %ld replies to strangers, %ld queries, %ld frames\n", seen.replies, seen.queries, seen.frames);
    printf("known names: asked %ld, right %ld, otherwise %ld, unanswered %ld\n", seen.asked, seen.right, seen.otherwise,
           seen.unanswered);
    printf("fresh names: asked %ld, right %ld, server failure %ld, otherwise %ld, unanswered %ld\n", seen.fresh,
           seen.fresh_right, seen.fresh_failed, seen.fresh_otherwise, seen.fresh_unanswered);
    printf("asked again %ld times; the slowest answer took %.3f s\n", seen.retried, seen.slowest);
    printf("VmRSS %ld KiB before, %ld KiB after\n", before, resident(pid));
}

int main(int argc, char **argv) {
    if (argc != 11) {
        fprintf(stderr, "usage: soak PID SITE UPSTREAM PEER LIST SECONDS DATAGRAMS SEED FORGED paced|flood\n");
        return 2;
    }
    int pid = atoi(argv[1]);
    site = (struct sockaddr_in){.sin_family = AF_INET, .sin_port = htons((uint16_t)atoi(argv[2]))};
    site.sin_addr.s_addr = htonl(INADDR_LOOPBACK);
    upstream = socket_at(atoi(argv[3]));
    peer = socket_at(atoi(argv[4]));
    client = socket_at(0);
    for (int i = 0; i < ASKERS; i++) askers[i] = socket_at(0);
    read_list(argv[5]);
    word = strtoull(argv[8], NULL, 10) * 2 + 1;
    forged_pool = (uint32_t)atol(argv[9]);
    flooding = strcmp(argv[10], "flood") == 0;
    started = (uint32_t)time(NULL);
    for (uint32_t i = 0; i < KNOWN; i++) {
        begin(i);
        wait_for(0);
    }
    long before = resident(pid);
    double began = now();
    run(pid, atof(argv[6]), atol(argv[7]), began);
    report(pid, began, before);
    return seen.unanswered == 0 && resident(pid) > 0 ? 0 : 1;
}
