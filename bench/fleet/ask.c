/* Asks the sites of a fleet on loopback, at a rate, or about one name until all have it.
 *
 * usage: ask load PORT SITES RATE SECONDS NAMES SLOW [awake]
 *        ask news PORT SITES LEARNER NAME MICROSECONDS SECONDS
 *        ask learn PORT SITES LEARNER NAME SECONDS
 *
 * The sites listen at PORT and the ports behind it. `load` asks each of them RATE questions a second for names that it
 * knows, of number 0 to NAMES - 1, evenly, whether they are answered or not, and waits three seconds for the last
 * answers. It prints a line for each answer that took SLOW milliseconds or more (`slow SITE SECOND MILLISECONDS`), then
 * one for each site (`site SITE ASKED ANSWERED OTHER SLOWEST`), then all (`all ASKED ANSWERED OTHER MEDIAN P999 SLOWEST`).
 * OTHER answers have a code or no record. With a last word this program never sleeps. `news` has site LEARNER learn the
 * name of this number, and then asks each other site that lacks it, four times in two milliseconds at least and then once
 * in so many microseconds, for SECONDS at most. It prints how long after LEARNER's answer it began to ask, the processor
 * time of its questions and that of looking for answers, how many questions these were, and how often it looked (`client
 * BEGAN ASKING LOOKING QUESTIONS LOOKS`, times in milliseconds), and for each site how long after LEARNER it had the name
 * (`had SITE MILLISECONDS`). `learn` has LEARNER learn the name, asks nobody else, and prints SECONDS later when the answer
 * came (`at SECONDS`, of the day's clock): by then the news has gone its way, and nothing has delayed it.
 *
 * An answer's time is from the call that sent its question to its arrival at this program's socket, as the kernel noted
 * it, so a delay of this program adds nothing.
 */
#define _GNU_SOURCE
#include <arpa/inet.h>
#include <poll.h>
#include <stdio.h>
#include <stdlib.h>
#include <string.h>
#include <sys/socket.h>
#include <time.h>
#include <unistd.h>

enum { MOST_SITES = 64, IDENTIFIERS = 65536, LENGTH = 31, PATIENCE = 3, LATEST = 600, QUICK = 4 };

struct site {
    int socket;
    long asked, answered, other;
    double slowest;
    double sent[IDENTIFIERS]; /* 0 where no answer is awaited */
};

static struct site sites[MOST_SITES];
static int count;
static double *waits;
static long waited;

static double time_of(clockid_t clock) {
    struct timespec t;
    clock_gettime(clock, &t);
    return (double)t.tv_sec + (double)t.tv_nsec / 1e9;
}

static double now(void) {
    return time_of(CLOCK_REALTIME);
}

static void fail(const char *what) {
    perror(what);
    exit(1);
}

/* A socket that is connected to a site, whose datagrams have the kernel's times. */
static int socket_to(int port) {
    int made = socket(AF_INET, SOCK_DGRAM | SOCK_NONBLOCK, 0), yes = 1, room = 1 << 22;
    struct sockaddr_in there = {.sin_family = AF_INET, .sin_port = htons((uint16_t)port)};
    there.sin_addr.s_addr = htonl(INADDR_LOOPBACK);
    if (made < 0 || connect(made, (struct sockaddr *)&there, sizeof there) != 0) fail("socket");
    setsockopt(made, SOL_SOCKET, SO_RCVBUF, &room, sizeof room);
    if (setsockopt(made, SOL_SOCKET, SO_TIMESTAMPNS, &yes, sizeof yes) != 0) fail("times of arrival");
    return made;
}

/* The next datagram of a site, and when it arrived; its length, or -1 where none is there. */
static int take(int from, unsigned char *octets, double *when) {
    char room[256];
    struct iovec part = {octets, LATEST};
    struct msghdr message = {.msg_iov = &part, .msg_iovlen = 1, .msg_control = room, .msg_controllen = sizeof room};
    int length = (int)recvmsg(from, &message, 0);
    struct cmsghdr *head = length < 0 ? NULL : CMSG_FIRSTHDR(&message);
    if (length >= 0 && head != NULL && head->cmsg_type == SO_TIMESTAMPNS) {
        struct timespec t;
        memcpy(&t, CMSG_DATA(head), sizeof t);
        *when = (double)t.tv_sec + (double)t.tv_nsec / 1e9;
    } else {
        *when = now();
    }
    return length;
}

/* A question for the name of a number, type A: nNNNNNNN.test. */
static void write_question(unsigned char *at, int identifier, long name, int recursion) {
    char label[16];
    snprintf(label, sizeof label, "n%07d", (int)(name % 10000000));
    memcpy(at, "\0\0\0\0\0\1\0\0\0\0\0\0\10", 13);
    at[0] = (unsigned char)(identifier >> 8);
    at[1] = (unsigned char)identifier;
    at[2] = (unsigned char)recursion;
    memcpy(at + 13, label, 8);
    memcpy(at + 21, "\4test\0\0\1\0\1", 10);
}

static int is_answer(const unsigned char *reply, int length) {
    return length >= 12 && (reply[3] & 15) == 0 && reply[7] > 0;
}

static void ask(struct site *site, long name) {
    unsigned char octets[LENGTH];
    int identifier = (int)(site->asked++ % IDENTIFIERS);
    write_question(octets, identifier, name, 0);
    site->sent[identifier] = now();
    if (send(site->socket, octets, LENGTH, 0) != LENGTH) site->sent[identifier] = 0;
}

/* Takes all answers that are there. */
static void take_answers(struct site *site, int index, double began, double slow) {
    unsigned char reply[LATEST];
    double when;
    for (int length; (length = take(site->socket, reply, &when)) >= 0;) {
        int identifier = length < 2 ? 0 : reply[0] << 8 | reply[1];
        double sent = site->sent[identifier], took = 1000 * (when - sent);
        if (length < 12 || sent == 0) continue;
        site->sent[identifier] = 0;
        site->answered++;
        site->other += !is_answer(reply, length);
        if (took > site->slowest) site->slowest = took;
        if (took >= slow) printf("slow %d %.3f %.3f\n", index, sent - began, took);
        waits[waited++] = took;
    }
}

static void wait_until(double then) {
    struct pollfd polled[MOST_SITES];
    double left = then - now();
    struct timespec time = {0, left <= 0 ? 0 : left > 0.1 ? 100000000 : (long)(left * 1e9)};
    for (int at = 0; at < count; at++) {
        polled[at] = (struct pollfd){.fd = sites[at].socket, .events = POLLIN};
    }
    ppoll(polled, (nfds_t)count, &time, NULL);
}

static int by_size(const void *one, const void *other) {
    double a = *(const double *)one, b = *(const double *)other;
    return (a > b) - (a < b);
}

static void print_all(void) {
    long asked = 0, answered = 0, other = 0;
    double slowest = 0;
    for (int at = 0; at < count; at++) {
        struct site *site = &sites[at];
        printf("site %d %ld %ld %ld %.3f\n", at, site->asked, site->answered, site->other, site->slowest);
        asked += site->asked;
        answered += site->answered;
        other += site->other;
        if (site->slowest > slowest) slowest = site->slowest;
    }
    qsort(waits, (size_t)waited, sizeof *waits, by_size);
    printf("all %ld %ld %ld %.3f %.3f %.3f\n", asked, answered, other, waited ? waits[waited / 2] : 0,
           waited ? waits[waited - 1 - waited / 1000] : 0, slowest);
}

static void load(double rate, double seconds, long names, double slow, int sleeps) {
    long whole = (long)(rate * seconds) * count, number = 0;
    double began = now(), step = seconds / (double)whole;
    waits = malloc(sizeof *waits * (size_t)(whole + 1));
    if (waits == NULL) fail("memory");
    while (number < whole || now() < began + seconds + PATIENCE) {
        for (; number < whole && began + (double)number * step <= now(); number++) {
            ask(&sites[number % count], number / count * 7919 % names);
        }
        if (sleeps) wait_until(number < whole ? began + (double)number * step : now() + 0.1);
        for (int at = 0; at < count; at++) take_answers(&sites[at], at, began, slow);
    }
    print_all();
}

/* Has a site learn a name; when it had answered. */
static double learn(struct site *site, long name) {
    unsigned char octets[LENGTH], reply[LATEST];
    double sent = now(), when;
    write_question(octets, 1, name, 1);
    if (send(site->socket, octets, LENGTH, 0) != LENGTH) fail("question");
    while (now() < sent + PATIENCE) {
        wait_until(sent + PATIENCE);
        if (is_answer(reply, take(site->socket, reply, &when))) return when;
    }
    fputs("no answer\n", stderr);
    exit(1);
}

/* Asks each site that has not answered. Gives how many questions that were. */
static int ask_others(const unsigned char *octets) {
    int asked = 0;
    for (int at = 0; at < count; at++) {
        if (!sites[at].answered) asked += send(sites[at].socket, octets, LENGTH, 0) == LENGTH;
    }
    return asked;
}

/* Takes all answers that are there. Gives how many sites have the name by these, and notes since when. */
static int take_news(double *had) {
    unsigned char reply[LATEST];
    double when;
    int found = 0;
    for (int at = 0; at < count; at++) {
        for (int length; (length = take(sites[at].socket, reply, &when)) >= 0;) {
            if (sites[at].answered || !is_answer(reply, length)) continue;
            sites[at].answered = 1;
            had[at] = when;
            found++;
        }
    }
    return found;
}

/* Nothing is printed before all have the name: that would get in its way. */
static void follow(int learner, long name, double most, double seconds) {
    unsigned char octets[LENGTH];
    int left = count - 1, passes = 0, questions = 0, looks = 0;
    double had[MOST_SITES] = {0}, learnt = learn(&sites[learner], name), step = 0, asking = 0;
    for (int at = 0; at < count; at++) sites[at].answered = at == learner;
    write_question(octets, 2, name, 0);
    double ran = time_of(CLOCK_PROCESS_CPUTIME_ID), next = now(), began = next - learnt;
    for (; left > 0 && now() < learnt + seconds; next += step) {
        double before = time_of(CLOCK_PROCESS_CPUTIME_ID);
        step = passes++ < QUICK && most > 0.0005 ? 0.0005 : most;
        questions += ask_others(octets);
        asking += time_of(CLOCK_PROCESS_CPUTIME_ID) - before;
        do {
            wait_until(next + step);
            left -= take_news(had);
            looks++;
        } while (left > 0 && now() < next + step);
    }
    ran = time_of(CLOCK_PROCESS_CPUTIME_ID) - ran;
    printf("client %.4f %.4f %.4f %d %d\n", 1000 * began, 1000 * asking, 1000 * (ran - asking), questions, looks);
    for (int at = 0; at < count; at++) {
        if (had[at] > 0) printf("had %d %.4f\n", at, 1000 * (had[at] - learnt));
    }
}

/* Has a site learn a name, and tells when that was. */
static void learn_alone(int learner, long name, double seconds) {
    double learnt = learn(&sites[learner], name);
    usleep((useconds_t)(seconds * 1e6));
    printf("at %.7f\n", learnt);
}

static int is_command(int argc, char **words, const char *name, int least, int most) {
    return argc >= least && argc <= most && strcmp(words[1], name) == 0;
}

int main(int argc, char **words) {
    int is_load = is_command(argc, words, "load", 8, 9), is_learn = is_command(argc, words, "learn", 7, 7);
    if (!is_load && !is_learn && !is_command(argc, words, "news", 8, 8)) {
        fprintf(stderr, "usage: ask load PORT SITES RATE SECONDS NAMES SLOW [awake]\n"
                        "       ask news PORT SITES LEARNER NAME MICROSECONDS SECONDS\n"
                        "       ask learn PORT SITES LEARNER NAME SECONDS\n");
        return 2;
    }
    count = atoi(words[3]);
    if (count < 1 || count > MOST_SITES) return 2;
    for (int at = 0; at < count; at++) sites[at].socket = socket_to(atoi(words[2]) + at);
    if (is_load) {
        load(atof(words[4]), atof(words[5]), atol(words[6]), atof(words[7]), argc == 8);
    } else if (is_learn) {
        learn_alone(atoi(words[4]) % count, atol(words[5]), atof(words[6]));
    } else {
        follow(atoi(words[4]) % count, atol(words[5]), atof(words[6]) / 1e6, atof(words[7]));
    }
    return 0;
}
