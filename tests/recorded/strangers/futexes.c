/* Waits by the system's own call: for a number that is another already, for one that changes, with a mask, and with a
 * time. */
#define _GNU_SOURCE
#include <errno.h>
#include <linux/futex.h>
#include <pthread.h>
#include <stdio.h>
#include <stdlib.h>
#include <sys/syscall.h>
#include <time.h>
#include <unistd.h>
static unsigned word, other, is_there;
static int passed, masked, unguarded;

static long wait_for(unsigned *at, unsigned value) {
    return syscall(SYS_futex, at, FUTEX_WAIT_PRIVATE, value, NULL, NULL, 0);
}

static void *hears(void *p) {
    __atomic_store_n(&is_there, 1, __ATOMIC_RELEASE);
    while (!__atomic_load_n(&word, __ATOMIC_ACQUIRE)) wait_for(&word, 0);
    int sum = passed;
    while (!__atomic_load_n(&other, __ATOMIC_ACQUIRE))
        syscall(SYS_futex, &other, FUTEX_WAIT_BITSET_PRIVATE, 0, NULL, NULL, FUTEX_BITSET_MATCH_ANY);
    printf("%d\n", sum + masked);
    unguarded++; /* RACE */
    return p;
}

int main(void) {
    pthread_t t;
    struct timespec soon = {0, 3000000};
    pthread_create(&t, NULL, hears, NULL);
    long answer = wait_for(&word, 7);
    int error = errno;
    printf("%ld %d\n", answer, error == EAGAIN);
    answer = syscall(SYS_futex, &word, FUTEX_WAIT_PRIVATE, 0, &soon, NULL, 0), error = errno;
    printf("%ld %d\n", answer, error == ETIMEDOUT);
    while (!__atomic_load_n(&is_there, __ATOMIC_ACQUIRE)) usleep(1000);
    usleep(5000);
    passed = 1, __atomic_store_n(&word, 1, __ATOMIC_RELEASE);
    syscall(SYS_futex, &word, FUTEX_WAKE_PRIVATE, 1, NULL, NULL, 0);
    usleep(5000);
    masked = 2, __atomic_store_n(&other, 1, __ATOMIC_RELEASE);
    syscall(SYS_futex, &other, FUTEX_WAKE_BITSET_PRIVATE, 1, NULL, NULL, 1);
    unguarded++; /* RACE */
    pthread_join(t, NULL);
    answer = wait_for(&word, 0), error = errno;
    printf("%ld %d\n", answer, error == EAGAIN);
    return 0;
}
