/* Each call that takes a lock: a line says TRY if the call waits for nobody or not for ever, and WAITS if it does. */
#define _GNU_SOURCE
#include <omp.h>
#include <pthread.h>
#include <semaphore.h>
#include <stdio.h>
#include <threads.h>
#include <time.h>
static pthread_mutex_t mutex = PTHREAD_MUTEX_INITIALIZER;
static pthread_cond_t never = PTHREAD_COND_INITIALIZER;
static pthread_spinlock_t spin;
static pthread_rwlock_t table = PTHREAD_RWLOCK_INITIALIZER;
static mtx_t plain, timed;
static omp_lock_t lock;
static omp_nest_lock_t nest;
static sem_t one;
static struct timespec late, late_monotonic;
static int refused;

static void mutexes(void) {
    pthread_mutex_lock(&mutex); /* WAITS */
    struct timespec past = {1, 0};
    pthread_cond_timedwait(&never, &mutex, &past); /* WAITS */
    pthread_mutex_unlock(&mutex);
    refused += pthread_mutex_trylock(&mutex); /* TRY */
    pthread_mutex_unlock(&mutex);
    refused += pthread_mutex_timedlock(&mutex, &late); /* TRY */
    pthread_mutex_unlock(&mutex);
    refused += pthread_mutex_clocklock(&mutex, CLOCK_MONOTONIC, &late_monotonic); /* TRY */
    pthread_mutex_unlock(&mutex);
    pthread_spin_lock(&spin); /* WAITS */
    pthread_spin_unlock(&spin);
    refused += pthread_spin_trylock(&spin); /* TRY */
    pthread_spin_unlock(&spin);
}
static void readers(void) {
    pthread_rwlock_rdlock(&table); /* WAITS */
    pthread_rwlock_unlock(&table);
    pthread_rwlock_wrlock(&table); /* WAITS */
    pthread_rwlock_unlock(&table);
    refused += pthread_rwlock_tryrdlock(&table); /* TRY */
    pthread_rwlock_unlock(&table);
    refused += pthread_rwlock_trywrlock(&table); /* TRY */
    pthread_rwlock_unlock(&table);
    refused += pthread_rwlock_timedrdlock(&table, &late); /* TRY */
    pthread_rwlock_unlock(&table);
    refused += pthread_rwlock_timedwrlock(&table, &late); /* TRY */
    pthread_rwlock_unlock(&table);
    refused += pthread_rwlock_clockrdlock(&table, CLOCK_MONOTONIC, &late_monotonic); /* TRY */
    pthread_rwlock_unlock(&table);
    refused += pthread_rwlock_clockwrlock(&table, CLOCK_MONOTONIC, &late_monotonic); /* TRY */
    pthread_rwlock_unlock(&table);
}
static void others(void) {
    flockfile(stdout); /* WAITS */
    funlockfile(stdout);
    refused += ftrylockfile(stdout); /* TRY */
    funlockfile(stdout);
    mtx_lock(&plain); /* WAITS */
    mtx_unlock(&plain);
    refused += mtx_trylock(&plain); /* TRY */
    mtx_unlock(&plain);
    refused += mtx_timedlock(&timed, &late); /* TRY */
    mtx_unlock(&timed);
    omp_set_lock(&lock); /* WAITS */
    omp_unset_lock(&lock);
    refused += !omp_test_lock(&lock); /* TRY */
    omp_unset_lock(&lock);
    omp_set_nest_lock(&nest); /* WAITS */
    omp_unset_nest_lock(&nest);
    refused += !omp_test_nest_lock(&nest); /* TRY */
    omp_unset_nest_lock(&nest);
    sem_wait(&one); /* WAITS */
    sem_post(&one);
    refused += sem_trywait(&one); /* TRY */
    sem_post(&one);
    refused += sem_timedwait(&one, &late); /* TRY */
    sem_post(&one);
}
static void *all(void *arg) {
    mutexes();
    readers();
    others();
    return arg;
}
int main(void) {
    pthread_t t;
    clock_gettime(CLOCK_REALTIME, &late);
    clock_gettime(CLOCK_MONOTONIC, &late_monotonic);
    late.tv_sec += 3600, late_monotonic.tv_sec += 3600;
    pthread_spin_init(&spin, PTHREAD_PROCESS_PRIVATE);
    mtx_init(&plain, mtx_plain), mtx_init(&timed, mtx_timed);
    omp_init_lock(&lock), omp_init_nest_lock(&nest);
    sem_init(&one, 0, 1);
    pthread_create(&t, NULL, all, NULL);
    pthread_join(t, NULL);
    return refused;
}
