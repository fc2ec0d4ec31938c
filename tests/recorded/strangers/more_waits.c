/* Locks and waits with a time, of POSIX and of C11, each of which passes plain data on, and messages of several parts. What
 * the readers write under the lock is a race. */
#define _GNU_SOURCE
#include <pthread.h>
#include <semaphore.h>
#include <stdio.h>
#include <stdlib.h>
#include <string.h>
#include <sys/epoll.h>
#include <sys/socket.h>
#include <sys/uio.h>
#include <threads.h>
#include <time.h>
#include <unistd.h>
static pthread_rwlock_t shared = PTHREAD_RWLOCK_INITIALIZER, calm = PTHREAD_RWLOCK_INITIALIZER;
static pthread_mutex_t m = PTHREAD_MUTEX_INITIALIZER;
static pthread_cond_t c = PTHREAD_COND_INITIALIZER;
static pthread_spinlock_t spin;
static sem_t sent, ready;
static mtx_t c11;
static cnd_t news;
static int by_writer, by_spin, by_c11, by_sent, is_told, by_clock, is_new, by_news, by_parts, by_message, by_name;
static int of_readers;
static int parts[2], messages[2], names[2];

static struct timespec later(clockid_t clock) {
    struct timespec t;
    clock_gettime(clock, &t);
    t.tv_sec += 500;
    return t;
}

static int locks(int k) {
    struct timespec t = later(CLOCK_REALTIME), u = later(CLOCK_MONOTONIC);
    int seen = 0;
    if (pthread_rwlock_timedrdlock(&calm, &t)) abort();
    of_readers = k; /* RACE */
    pthread_rwlock_unlock(&calm);
    for (int round = 0; round < 2; round++) {
        if (pthread_rwlock_timedrdlock(&shared, &t)) abort();
        seen += by_writer;
        pthread_rwlock_unlock(&shared);
        if (pthread_rwlock_clockrdlock(&shared, CLOCK_MONOTONIC, &u)) abort();
        seen += by_writer;
        pthread_rwlock_unlock(&shared);
        if (round ? pthread_rwlock_timedwrlock(&shared, &t) : pthread_rwlock_clockwrlock(&shared, CLOCK_MONOTONIC, &u))
            abort();
        by_writer++;
        pthread_rwlock_unlock(&shared);
        while (pthread_spin_trylock(&spin)) thrd_yield();
        by_spin++;
        pthread_spin_unlock(&spin);
        if (mtx_timedlock(&c11, &t) != thrd_success) abort();
        by_c11++;
        mtx_unlock(&c11);
    }
    return seen;
}

static void *tells(void *p) {
    struct iovec two[2] = {{"ab", 2}, {"cd", 2}};
    struct msghdr message = {.msg_iov = two, .msg_iovlen = 2};
    locks(1);
    by_sent = 1, sem_post(&sent);
    /* Who hears has the mutex until it waits. */
    while (sem_wait(&ready)) {}
    pthread_mutex_lock(&m), is_told = by_clock = 1, pthread_cond_signal(&c), pthread_mutex_unlock(&m);
    while (sem_wait(&ready)) {}
    mtx_lock(&c11), is_new = by_news = 1, cnd_signal(&news), mtx_unlock(&c11);
    by_parts = 1;
    if (writev(parts[1], two, 2) != 4) abort();
    by_message = 1;
    if (sendmsg(messages[1], &message, 0) != 4) abort();
    by_name = 1;
    if (sendto(names[1], "ef", 2, 0, NULL, 0) != 2) abort();
    return p;
}

static void *hears(void *p) {
    char text[3][2];
    struct iovec two[2] = {{text[0], 2}, {text[1], 2}};
    struct msghdr message = {.msg_iov = two, .msg_iovlen = 2};
    struct timespec t = later(CLOCK_REALTIME), u = later(CLOCK_MONOTONIC);
    locks(2);
    if (sem_clockwait(&sent, CLOCK_MONOTONIC, &u)) abort();
    int sum = by_sent;
    pthread_mutex_lock(&m), sem_post(&ready);
    while (!is_told)
        if (pthread_cond_clockwait(&c, &m, CLOCK_MONOTONIC, &u)) abort();
    sum += by_clock, pthread_mutex_unlock(&m);
    mtx_lock(&c11), sem_post(&ready);
    while (!is_new)
        if (cnd_timedwait(&news, &c11, &t) != thrd_success) abort();
    sum += by_news, mtx_unlock(&c11);
    if (readv(parts[0], two, 2) != 4) abort();
    sum += by_parts;
    if (recvmsg(messages[0], &message, 0) != 4) abort();
    sum += by_message;
    if (recvfrom(names[0], text[2], 2, 0, NULL, NULL) != 2) abort();
    printf("%d\n", sum + by_name);
    return p;
}

int main(void) {
    pthread_t a, b;
    pthread_spin_init(&spin, 0), sem_init(&sent, 0, 0), sem_init(&ready, 0, 0), mtx_init(&c11, mtx_timed), cnd_init(&news);
    if (pipe(parts) || socketpair(AF_UNIX, SOCK_STREAM, 0, messages) || socketpair(AF_UNIX, SOCK_STREAM, 0, names)) abort();
    pthread_create(&a, NULL, hears, NULL), pthread_create(&b, NULL, tells, NULL);
    pthread_join(a, NULL), pthread_join(b, NULL);
    printf("%d %d %d\n", by_writer, by_spin, by_c11);
    return of_readers == 0;
}
