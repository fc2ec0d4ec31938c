/* Each way to lock for writing keeps writers and readers apart, and orders nothing else: what is written before one
 * section and after another is a race, whichever came first. Readers are not kept apart. */
#define _GNU_SOURCE
#include <pthread.h>
#include <sched.h>
#include <stdio.h>
#include <stdlib.h>
#include <time.h>
#define WAYS 5
static pthread_rwlock_t lock[WAYS];
static int guarded[WAYS], beside_plain, beside_try, beside_timed, beside_clock, beside_read, of_readers;

static void in(int way) {
    struct timespec t, u;
    clock_gettime(CLOCK_REALTIME, &t), clock_gettime(CLOCK_MONOTONIC, &u);
    t.tv_sec += 500, u.tv_sec += 500;
    int failed = 0;
    switch (way) {
    case 0: failed = pthread_rwlock_wrlock(&lock[way]); break;
    case 1:
        while (pthread_rwlock_trywrlock(&lock[way])) sched_yield();
        break;
    case 2: failed = pthread_rwlock_timedwrlock(&lock[way], &t); break;
    case 3: failed = pthread_rwlock_clockwrlock(&lock[way], CLOCK_MONOTONIC, &u); break;
    default: failed = pthread_rwlock_tryrdlock(&lock[way]);
    }
    if (failed) abort();
}

static void section(int way) {
    in(way);
    if (way < WAYS - 1) guarded[way]++;
    else of_readers++; /* RACE readers */
    pthread_rwlock_unlock(&lock[way]);
}

static int sections(void) {
    beside_plain++; /* RACE plain */
    section(0);
    beside_try++; /* RACE try */
    section(1);
    beside_timed++; /* RACE timed */
    section(2);
    beside_clock++; /* RACE clock */
    section(3);
    section(4);
    beside_read++; /* RACE read */
    return 0;
}

static void *work(void *p) {
    sections();
    for (int way = 0; way < WAYS - 1; way++) {
        pthread_rwlock_rdlock(&lock[way]);
        if (guarded[way] < 1 || guarded[way] > 2) abort();
        pthread_rwlock_unlock(&lock[way]);
    }
    return p;
}

int main(void) {
    pthread_t a, b;
    for (int way = 0; way < WAYS; way++) pthread_rwlock_init(&lock[way], NULL);
    pthread_create(&a, NULL, work, NULL), pthread_create(&b, NULL, work, NULL);
    pthread_join(a, NULL), pthread_join(b, NULL);
    for (int way = 0; way < WAYS - 1; way++) printf("%d\n", guarded[way]);
    return 0;
}
