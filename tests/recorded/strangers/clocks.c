/* Each wait with a time takes it by the clock that is named: one that is soon runs out, and one that is far does not,
 * although what is waited for comes a while later. */
#define _GNU_SOURCE
#include <errno.h>
#include <pthread.h>
#include <semaphore.h>
#include <stdio.h>
#include <stdlib.h>
#include <threads.h>
#include <time.h>
#include <unistd.h>
static mtx_t taken, m;
static cnd_t c;
static pthread_mutex_t posix_taken = PTHREAD_MUTEX_INITIALIZER, n = PTHREAD_MUTEX_INITIALIZER;
static pthread_rwlock_t shared = PTHREAD_RWLOCK_INITIALIZER;
static pthread_cond_t real = PTHREAD_COND_INITIALIZER, steady;
static sem_t held, waits, s;
static int is_told, by_c11, by_real, by_steady, by_sent, unguarded, late, early;

static struct timespec after(clockid_t clock, long ms) {
    struct timespec t;
    clock_gettime(clock, &t);
    t.tv_sec += (t.tv_nsec / 1000000 + ms) / 1000;
    t.tv_nsec = (t.tv_nsec / 1000000 + ms) % 1000 * 1000000;
    return t;
}
#define SOON(clock) (&(struct timespec[]){after(clock, 3)}[0])
#define FAR(clock) (&(struct timespec[]){after(clock, 500000)}[0])

static void runs_out(void) {
    while (sem_wait(&held)) {}
    late += mtx_timedlock(&taken, SOON(CLOCK_REALTIME)) == thrd_timedout;
    late += pthread_mutex_timedlock(&posix_taken, SOON(CLOCK_REALTIME)) == ETIMEDOUT;
    late += pthread_mutex_clocklock(&posix_taken, CLOCK_MONOTONIC, SOON(CLOCK_MONOTONIC)) == ETIMEDOUT;
    late += pthread_rwlock_timedrdlock(&shared, SOON(CLOCK_REALTIME)) == ETIMEDOUT;
    late += pthread_rwlock_clockrdlock(&shared, CLOCK_MONOTONIC, SOON(CLOCK_MONOTONIC)) == ETIMEDOUT;
    late += pthread_rwlock_clockwrlock(&shared, CLOCK_MONOTONIC, SOON(CLOCK_MONOTONIC)) == ETIMEDOUT;
    late += sem_clockwait(&s, CLOCK_MONOTONIC, SOON(CLOCK_MONOTONIC)) == -1 && errno == ETIMEDOUT;
    mtx_lock(&m);
    late += cnd_timedwait(&c, &m, SOON(CLOCK_REALTIME)) == thrd_timedout;
    mtx_unlock(&m);
    pthread_mutex_lock(&n);
    late += pthread_cond_timedwait(&real, &n, SOON(CLOCK_REALTIME)) == ETIMEDOUT;
    late += pthread_cond_clockwait(&real, &n, CLOCK_MONOTONIC, SOON(CLOCK_MONOTONIC)) == ETIMEDOUT;
    pthread_mutex_unlock(&n);
}

static void *hears(void *p) {
    runs_out();
    unguarded++; /* RACE */
    sem_post(&waits);
    early += mtx_timedlock(&taken, FAR(CLOCK_REALTIME)) != thrd_success;
    early += pthread_mutex_clocklock(&posix_taken, CLOCK_MONOTONIC, FAR(CLOCK_MONOTONIC)) != 0;
    early += pthread_rwlock_clockwrlock(&shared, CLOCK_MONOTONIC, FAR(CLOCK_MONOTONIC)) != 0;
    early += sem_clockwait(&s, CLOCK_MONOTONIC, FAR(CLOCK_MONOTONIC)) != 0;
    int sum = by_sent;
    mtx_lock(&m), sem_post(&waits);
    while (is_told < 1) early += cnd_timedwait(&c, &m, FAR(CLOCK_REALTIME)) != thrd_success;
    sum += by_c11, mtx_unlock(&m);
    pthread_mutex_lock(&n), sem_post(&waits);
    while (is_told < 2) early += pthread_cond_timedwait(&real, &n, FAR(CLOCK_REALTIME)) != 0;
    sum += by_real, sem_post(&waits);
    while (is_told < 3) early += pthread_cond_timedwait(&steady, &n, FAR(CLOCK_MONOTONIC)) != 0;
    sum += by_steady, pthread_mutex_unlock(&n);
    printf("%d\n", sum);
    return p;
}

/* Those who wait are asleep by then. */
static void comes_later(void) {
    while (sem_wait(&waits)) {}
    usleep(5000);
}

int main(void) {
    pthread_t t;
    pthread_condattr_t a;
    pthread_condattr_init(&a), pthread_condattr_setclock(&a, CLOCK_MONOTONIC), pthread_cond_init(&steady, &a);
    mtx_init(&taken, mtx_timed), mtx_init(&m, mtx_plain), cnd_init(&c);
    sem_init(&held, 0, 0), sem_init(&waits, 0, 0), sem_init(&s, 0, 0);
    pthread_create(&t, NULL, hears, NULL);
    mtx_lock(&taken), pthread_mutex_lock(&posix_taken), pthread_rwlock_wrlock(&shared), sem_post(&held);
    unguarded++; /* RACE */
    comes_later();
    mtx_unlock(&taken), usleep(5000), pthread_mutex_unlock(&posix_taken), usleep(5000), pthread_rwlock_unlock(&shared);
    usleep(5000), by_sent = 1, sem_post(&s);
    comes_later(), mtx_lock(&m), by_c11 = is_told = 1, cnd_signal(&c), mtx_unlock(&m);
    comes_later(), pthread_mutex_lock(&n);
    by_real = 1, is_told = 2, pthread_cond_signal(&real), pthread_mutex_unlock(&n);
    comes_later(), pthread_mutex_lock(&n);
    by_steady = 1, is_told = 3, pthread_cond_signal(&steady), pthread_mutex_unlock(&n);
    pthread_join(t, NULL);
    printf("%d %d\n", late, early);
    return 0;
}
