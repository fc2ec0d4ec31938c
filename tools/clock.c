/* Loaded before the C library (LD_PRELOAD), it has the clock of the day show another time: CLOCK_AT is how many seconds
 * that is after 1 January 1970 in UTC, or before if it is below 0. If CLOCK_AT is `none`, the clock fails. Clocks that
 * only measure go on. */
#define _GNU_SOURCE
#include <errno.h>
#include <stdlib.h>
#include <string.h>
#include <sys/syscall.h>
#include <time.h>
#include <unistd.h>

int clock_gettime(clockid_t clock, struct timespec *now) {
    const char *at = getenv("CLOCK_AT");
    if (clock != CLOCK_REALTIME || !at) return syscall(SYS_clock_gettime, clock, now);
    if (strcmp(at, "none") == 0) {
        errno = EINVAL;
        return -1;
    }
    now->tv_sec = atoll(at);
    now->tv_nsec = 0;
    return 0;
}
