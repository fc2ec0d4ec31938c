/* Each kind of synchronization hands plain data on, which would race without it. One race is in it: the two lines at RACE. */
#define _GNU_SOURCE
#include <errno.h>
#include <pthread.h>
#include <sched.h>
#include <semaphore.h>
#include <stdatomic.h>
#include <stdio.h>
#include <stdlib.h>
#include <string.h>
#include <sys/wait.h>
#include <time.h>
#include <unistd.h>

#define THREADS 4
static pthread_mutex_t mutex = PTHREAD_MUTEX_INITIALIZER, tried = PTHREAD_MUTEX_INITIALIZER, timed = PTHREAD_MUTEX_INITIALIZER;
static pthread_mutex_t again, for_news = PTHREAD_MUTEX_INITIALIZER;
static pthread_cond_t news = PTHREAD_COND_INITIALIZER;
static pthread_spinlock_t spin;
static pthread_rwlock_t shared = PTHREAD_RWLOCK_INITIALIZER;
static pthread_barrier_t barrier;
static pthread_once_t once = PTHREAD_ONCE_INIT;
static sem_t sent;
static atomic_int flag, count, place;
static _Atomic __int128 wide;
static int by_mutex, by_try, by_time, by_again, by_spin, by_readers, by_news, is_news, by_sent, by_once, by_flag, by_place, by_wide, by_thread;
static int table[THREADS], racy;
static char *block;
static struct pair { long first, second; } by_copy;

static void make_once(void) { by_once = 7; }

static struct timespec soon(void) {
    struct timespec t;
    clock_gettime(CLOCK_REALTIME, &t);
    t.tv_sec += 600;
    return t;
}

static void locks(void) {
    for (int i = 0; i < 5; i++) {
        pthread_mutex_lock(&mutex), by_mutex++, pthread_mutex_unlock(&mutex);
        while (pthread_mutex_trylock(&tried)) usleep(10);
        by_try++, pthread_mutex_unlock(&tried);
        struct timespec t = soon();
        if (pthread_mutex_timedlock(&timed, &t)) abort();
        by_time++, pthread_mutex_unlock(&timed);
        pthread_mutex_lock(&again), pthread_mutex_lock(&again), by_again++;
        pthread_mutex_unlock(&again), by_again++, pthread_mutex_unlock(&again);
        pthread_spin_lock(&spin), by_spin++, pthread_spin_unlock(&spin);
    }
}

static int readers_and_writers(void) {
    int sum = 0;
    for (int i = 0; i < 3; i++) {
        pthread_rwlock_rdlock(&shared), sum += by_readers, pthread_rwlock_unlock(&shared);
        pthread_rwlock_wrlock(&shared), by_readers++, pthread_rwlock_unlock(&shared);
        if (!pthread_rwlock_tryrdlock(&shared)) sum += by_readers, pthread_rwlock_unlock(&shared);
    }
    return sum;
}

static int barriers(long self) {
    int sum = 0;
    for (int round = 0; round < 2; round++) {
        table[self] = round;
        pthread_barrier_wait(&barrier);
        for (int k = 0; k < THREADS; k++) sum += table[k];
        pthread_barrier_wait(&barrier);
    }
    return sum;
}

static int waits(long self) {
    int expected = 2;
    switch (self) {
    case 0:
        pthread_mutex_lock(&for_news), is_news = 1, by_news = 1, pthread_cond_broadcast(&news), pthread_mutex_unlock(&for_news);
        by_sent = 1, sem_post(&sent);
        by_copy.first = 5;
        by_flag = 1, atomic_store_explicit(&flag, 1, memory_order_release);
        while (atomic_load(&count) != 2) sched_yield();
        by_place = 3, atomic_exchange(&place, 2);
        by_wide = 4, atomic_fetch_add(&wide, 1);
        return 0;
    case 1: {
        struct timespec t = soon();
        pthread_mutex_lock(&for_news);
        while (!is_news) pthread_cond_timedwait(&news, &for_news, &t);
        pthread_mutex_unlock(&for_news);
        atomic_fetch_add(&count, 1);
        return by_news;
    }
    case 2:
        while (sem_wait(&sent)) {}
        atomic_fetch_add(&count, 1);
        return by_sent;
    default:
        while (!atomic_load_explicit(&flag, memory_order_acquire)) sched_yield();
        struct pair copy;
        memcpy(&copy, &by_copy, sizeof copy);
        while (!atomic_compare_exchange_weak(&place, &expected, 9)) expected = 2;
        while (!atomic_load(&wide)) sched_yield();
        return by_flag + by_place + by_wide + (int)copy.first;
    }
}

/* The block of a thread lies where that of another may have lain: it is another variable. */
static void blocks(long self) {
    char *own = malloc(40);
    own[3] = (char)self;
    own = realloc(own, 4000);
    own[3]++;
    free(own);
    if (self == 0) block[0] = 1;
    else if (self == 1) block[1] = 1; /* another byte */
}

static void *work(void *p) {
    long self = (long)p;
    int sum = by_thread;
    locks();
    sum += readers_and_writers() + barriers(self) + waits(self);
    pthread_once(&once, make_once);
    blocks(self);
    if (self == 1) racy = sum; /* RACE */
    if (self == 3) sum += racy; /* RACE */
    table[self] = sum;
    return p;
}

int main(void) {
    pthread_t ids[THREADS];
    pthread_mutexattr_t recursive;
    pthread_mutexattr_init(&recursive), pthread_mutexattr_settype(&recursive, PTHREAD_MUTEX_RECURSIVE), pthread_mutex_init(&again, &recursive);
    pthread_spin_init(&spin, 0), pthread_barrier_init(&barrier, NULL, THREADS), sem_init(&sent, 0, 0);
    block = calloc(2, 1);
    by_thread = 1;
    for (long k = 0; k < THREADS; k++) if (pthread_create(&ids[k], NULL, work, (void *)k)) return 1;
    /* What a child process does is none of this run. */
    pid_t child = fork();
    if (child == 0) by_mutex = 0, racy = 0, _exit(0);
    waitpid(child, NULL, 0);
    for (int k = 0; k < THREADS; k++) pthread_join(ids[k], NULL);
    printf("%d %d %d %d %d %d %d %d %d\n", by_mutex, by_try, by_time, by_again, by_spin, by_readers, by_once, block[0] + block[1], racy != 0 && table[3] != 0);
    return 0;
}
