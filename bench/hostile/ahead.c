/* A library to preload (LD_PRELOAD): for one program the seconds since 1970 go ahead, or back.
 *
 * CLOCK_AHEAD names a file of eight octets, a signed number of this machine: by how many seconds CLOCK_REALTIME is
 * ahead. Whoever writes it moves the clock at once. Other clocks stay as they are. See README.md.
 */
#define _GNU_SOURCE
#include <fcntl.h>
#include <stdint.h>
#include <stdlib.h>
#include <sys/mman.h>
#include <sys/syscall.h>
#include <time.h>
#include <unistd.h>

static const volatile int64_t *ahead;

__attribute__((constructor)) static void find(void) {
    int file = open(getenv("CLOCK_AHEAD"), O_RDONLY);
    void *found = mmap(NULL, sizeof *ahead, PROT_READ, MAP_SHARED, file, 0);
    if (file < 0 || found == MAP_FAILED) abort();
    close(file);
    ahead = found;
}

int clock_gettime(clockid_t clock, struct timespec *moment) {
    int failed = (int)syscall(SYS_clock_gettime, clock, moment);
    if (failed == 0 && clock == CLOCK_REALTIME && ahead != NULL) moment->tv_sec += *ahead;
    return failed;
}
