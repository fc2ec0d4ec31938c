/* A condition variable of the program's own, by the kernel's futexes: the waiters are moved to the mutex. Nothing here
 * waits for a time, so how long a thread spins is a matter of turns, and not of the machine. */
#define _GNU_SOURCE
#include <limits.h>
#include <linux/futex.h>
#include <pthread.h>
#include <sched.h>
#include <stdatomic.h>
#include <stdio.h>
#include <sys/syscall.h>
#include <unistd.h>
static atomic_int mutex, sequence, busy = 1;
static int news, sum, came;
static long spins;
static void lock(void) {
    int free_now = 0;
    if (atomic_compare_exchange_strong(&mutex, &free_now, 1)) return;
    while (atomic_exchange(&mutex, 2)) syscall(SYS_futex, &mutex, FUTEX_WAIT_PRIVATE, 2, NULL, NULL, 0);
}
static void unlock(void) {
    if (atomic_exchange(&mutex, 0) == 2) syscall(SYS_futex, &mutex, FUTEX_WAKE_PRIVATE, 1, NULL, NULL, 0);
}
static void wait_for_news(void) {
    int seen = sequence;
    unlock();
    syscall(SYS_futex, &sequence, FUTEX_WAIT_PRIVATE, seen, NULL, NULL, 0);
    while (atomic_exchange(&mutex, 2)) syscall(SYS_futex, &mutex, FUTEX_WAIT_PRIVATE, 2, NULL, NULL, 0);
}
static void *waits(void *p) {
    lock();
    came++;
    while (!news) wait_for_news();
    sum++;
    unlock();
    return p;
}
/* It runs until all waiters have ended. So nobody looks again only because nothing happens. */
static void *spins_on(void *p) {
    while (busy) spins++;
    return p;
}
static int all_came(void) {
    lock();
    int all = came == 3;
    unlock();
    return all;
}
int main(void) {
    pthread_t t[4];
    for (int k = 0; k < 3; k++) pthread_create(&t[k], NULL, waits, NULL);
    while (!all_came()) sched_yield();
    /* Who has come goes on into its wait. */
    for (int k = 0; k < 100; k++) sched_yield();
    pthread_create(&t[3], NULL, spins_on, NULL);
    lock();
    news = 1, sequence++;
    syscall(SYS_futex, &sequence, FUTEX_CMP_REQUEUE_PRIVATE, 1, INT_MAX, &mutex, sequence);
    unlock();
    for (int k = 0; k < 3; k++) pthread_join(t[k], NULL);
    busy = 0;
    pthread_join(t[3], NULL);
    printf("%d\n", sum);
    return 0;
}
