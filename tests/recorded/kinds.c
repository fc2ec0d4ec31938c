/* Four threads meet by the kind of synchronization that the word names, again and again. A seed has to give one
 * recording: nothing in here hangs on the time. */
#define _GNU_SOURCE
#include <errno.h>
#include <pthread.h>
#include <sched.h>
#include <semaphore.h>
#include <stdatomic.h>
#include <stdio.h>
#include <stdlib.h>
#include <string.h>
#include <sys/eventfd.h>
#include <sys/socket.h>
#include <threads.h>
#include <unistd.h>

#define THREADS 4
#define ROUNDS 4
static pthread_mutex_t mutex = PTHREAD_MUTEX_INITIALIZER;
static pthread_cond_t news = PTHREAD_COND_INITIALIZER;
static pthread_spinlock_t spin;
static pthread_rwlock_t shared = PTHREAD_RWLOCK_INITIALIZER;
static pthread_barrier_t barrier;
static once_flag c11_once[ROUNDS] = {ONCE_FLAG_INIT, ONCE_FLAG_INIT, ONCE_FLAG_INIT, ONCE_FLAG_INIT};
static pthread_once_t once[ROUNDS] = {PTHREAD_ONCE_INIT, PTHREAD_ONCE_INIT, PTHREAD_ONCE_INIT, PTHREAD_ONCE_INIT};
static sem_t sent;
static atomic_int flag, spun;
static mtx_t c11_mutex;
static cnd_t c11_news;
static int value, turn, two[2], pair[2], event;

static struct timespec later(void) {
    struct timespec t;
    clock_gettime(CLOCK_REALTIME, &t);
    t.tv_sec += 100;
    return t;
}

static void by_mutex(int self) { (void)self, pthread_mutex_lock(&mutex), value++, pthread_mutex_unlock(&mutex); }
static void by_try(int self) {
    while (pthread_mutex_trylock(&mutex)) sched_yield();
    value += self, pthread_mutex_unlock(&mutex);
}
static void by_timed(int self) {
    struct timespec t = later();
    if (pthread_mutex_timedlock(&mutex, &t)) abort();
    value += self, pthread_mutex_unlock(&mutex);
}
static void by_spin(int self) { pthread_spin_lock(&spin), value += self, pthread_spin_unlock(&spin); }
static void by_readers(int self) {
    pthread_rwlock_rdlock(&shared);
    int seen = value;
    pthread_rwlock_unlock(&shared), pthread_rwlock_wrlock(&shared), value = seen + self, pthread_rwlock_unlock(&shared);
}
static void by_try_readers(int self) {
    while (pthread_rwlock_tryrdlock(&shared)) sched_yield();
    int seen = value;
    pthread_rwlock_unlock(&shared);
    while (pthread_rwlock_trywrlock(&shared)) sched_yield();
    value = seen + self, pthread_rwlock_unlock(&shared);
}
static void by_try_semaphore(int self) {
    while (sem_trywait(&sent)) sched_yield();
    value += self, sem_post(&sent);
}
static void by_barrier(int self) {
    if (pthread_barrier_wait(&barrier) == PTHREAD_BARRIER_SERIAL_THREAD) value += self;
    pthread_barrier_wait(&barrier);
}
static void by_semaphore(int self) {
    while (sem_wait(&sent)) {}
    value += self, sem_post(&sent);
}
static void by_condition(int self) {
    pthread_mutex_lock(&mutex);
    while (turn % THREADS != self) pthread_cond_wait(&news, &mutex);
    turn++, pthread_cond_broadcast(&news), pthread_mutex_unlock(&mutex);
}
static void by_signal(int self) {
    struct timespec t = later();
    pthread_mutex_lock(&mutex);
    while (value > 0) pthread_cond_timedwait(&news, &mutex, &t);
    value = 1 + self, pthread_mutex_unlock(&mutex);
    pthread_mutex_lock(&mutex), value = 0, pthread_cond_signal(&news), pthread_mutex_unlock(&mutex);
}
static void make_once(void) { value++; }
static void by_once(int self) {
    for (int k = 0; k < ROUNDS; k++) pthread_once(&once[(k + self) % ROUNDS], make_once);
}
static void by_atomics(int self) {
    int before = 0;
    while (!atomic_compare_exchange_weak(&spun, &before, 1 + self)) before = 0;
    value += self, atomic_store(&spun, 0);
}
static void by_flag(int self) {
    if (self == 0) value++, atomic_store_explicit(&flag, 1, memory_order_release);
    else while (!atomic_load_explicit(&flag, memory_order_acquire)) sched_yield();
}
static void by_fences(int self) {
    if (self == 0) value++, atomic_thread_fence(memory_order_release), atomic_store_explicit(&flag, 1, memory_order_relaxed);
    else while (!atomic_load_explicit(&flag, memory_order_relaxed)) sched_yield();
    atomic_thread_fence(memory_order_acquire), atomic_fetch_add_explicit(&spun, value, memory_order_acq_rel);
}
static void by_pipe(int self) {
    char mark;
    if (read(two[0], &mark, 1) != 1) abort();
    value += self;
    if (write(two[1], "x", 1) != 1) abort();
}
static void by_socket_pair(int self) {
    char mark;
    if (recv(pair[0], &mark, 1, 0) != 1) abort();
    value += self;
    if (send(pair[1], "x", 1, 0) != 1) abort();
}
static void by_eventfd(int self) {
    eventfd_t n;
    if (eventfd_read(event, &n)) abort();
    value += self;
    if (eventfd_write(event, 1)) abort();
}
static void by_descriptor(int self) {
    int f = dup(0);
    if (f < 0) abort();
    value = 0 * self, close(f);
}
static void by_chance(int self) { self += rand() % 3; for (volatile int k = 0; k < self; k++) {} }
static void by_c11(int self) {
    mtx_lock(&c11_mutex);
    while (turn % THREADS != self) cnd_wait(&c11_news, &c11_mutex);
    turn++, cnd_broadcast(&c11_news), mtx_unlock(&c11_mutex);
}

static void by_c11_try(int self) {
    call_once(&c11_once[self % ROUNDS], make_once);
    while (mtx_trylock(&c11_mutex) != thrd_success) thrd_yield();
    value += self, mtx_unlock(&c11_mutex);
}

static const struct kind { const char *name; void (*work)(int); } kinds[] = {
    {"mutex", by_mutex}, {"try", by_try}, {"timed", by_timed}, {"spin", by_spin}, {"readers", by_readers}, {"barrier", by_barrier},
    {"semaphore", by_semaphore}, {"condition", by_condition}, {"signal", by_signal}, {"once", by_once}, {"atomics", by_atomics},
    {"flag", by_flag}, {"pipe", by_pipe}, {"socket-pair", by_socket_pair}, {"eventfd", by_eventfd}, {"descriptor", by_descriptor},
    {"chance", by_chance}, {"c11", by_c11}, {"try-readers", by_try_readers}, {"try-semaphore", by_try_semaphore}, {"fences", by_fences},
    {"c11-try", by_c11_try},
};
static const struct kind *kind;

static int work(int self) {
    for (int k = 0; k < ROUNDS; k++) kind->work(self);
    return self;
}
static int c11_work(void *p) { return work((int)(long)p); }
static void *posix_work(void *p) { return (void *)(long)work((int)(long)p); }

static void prepare(void) {
    pthread_spin_init(&spin, 0), pthread_barrier_init(&barrier, NULL, THREADS), sem_init(&sent, 0, 1);
    mtx_init(&c11_mutex, mtx_plain), cnd_init(&c11_news);
    if (pipe(two) || write(two[1], "x", 1) != 1 || socketpair(AF_UNIX, SOCK_STREAM, 0, pair) || write(pair[1], "x", 1) != 1) abort();
    event = eventfd(1, 0);
}

int main(int count, char **words) {
    for (size_t k = 0; k < sizeof kinds / sizeof *kinds; k++) {
        if (count < 2) puts(kinds[k].name);
        else if (!strcmp(words[1], kinds[k].name)) kind = &kinds[k];
    }
    if (!kind) return count < 2 ? 0 : 2;
    prepare();
    pthread_t ids[THREADS];
    thrd_t c11_ids[THREADS];
    int is_c11 = !strncmp(kind->name, "c11", 3);
    for (long k = 0; k < THREADS; k++) {
        if (is_c11 ? thrd_create(&c11_ids[k], c11_work, (void *)k) : pthread_create(&ids[k], NULL, posix_work, (void *)k)) abort();
    }
    for (int k = 0; k < THREADS; k++) is_c11 ? thrd_join(c11_ids[k], NULL) : pthread_join(ids[k], NULL);
    return 0;
}
