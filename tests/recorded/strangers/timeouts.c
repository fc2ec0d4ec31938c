/* Times that run out. */
#define _GNU_SOURCE
#include <errno.h>
#include <pthread.h>
#include <semaphore.h>
#include <stdio.h>
#include <time.h>
#include <unistd.h>
static pthread_mutex_t m = PTHREAD_MUTEX_INITIALIZER, n = PTHREAD_MUTEX_INITIALIZER;
static pthread_cond_t c;
static pthread_rwlock_t l = PTHREAD_RWLOCK_INITIALIZER;
static sem_t s, go;
static int late;
static volatile int racy;
static struct timespec soon(clockid_t k) {
    struct timespec t;
    clock_gettime(k, &t);
    t.tv_nsec += 3000000;
    if (t.tv_nsec >= 1000000000) t.tv_sec++, t.tv_nsec -= 1000000000;
    return t;
}
static void *tries(void *p) {
    struct timespec t = soon(CLOCK_REALTIME), w = soon(CLOCK_MONOTONIC);
    late += pthread_mutex_timedlock(&m, &t) == ETIMEDOUT;
    late += pthread_mutex_clocklock(&m, CLOCK_MONOTONIC, &w) == ETIMEDOUT;
    t = soon(CLOCK_REALTIME);
    late += sem_timedwait(&s, &t) == -1 && errno == ETIMEDOUT;
    t = soon(CLOCK_REALTIME);
    late += pthread_rwlock_timedwrlock(&l, &t) == ETIMEDOUT;
    pthread_mutex_lock(&n);
    t = soon(CLOCK_MONOTONIC);
    late += pthread_cond_timedwait(&c, &n, &t) == ETIMEDOUT;
    pthread_mutex_unlock(&n);
    sem_post(&go);
    racy = 1; /* RACE */
    return p;
}
int main(void) {
    pthread_t t;
    pthread_condattr_t a;
    pthread_condattr_init(&a), pthread_condattr_setclock(&a, CLOCK_MONOTONIC), pthread_cond_init(&c, &a);
    sem_init(&s, 0, 0), sem_init(&go, 0, 0);
    pthread_mutex_lock(&m), pthread_rwlock_rdlock(&l);
    pthread_create(&t, NULL, tries, NULL);
    while (sem_wait(&go)) {}
    pthread_mutex_unlock(&m), pthread_rwlock_unlock(&l);
    racy = 2; /* RACE */
    pthread_join(t, NULL);
    printf("%d\n", late);
    return 0;
}
