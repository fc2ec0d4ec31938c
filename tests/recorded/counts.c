/* What record/run counts of a run; the word says which. */
#define _GNU_SOURCE
#include <pthread.h>
#include <semaphore.h>
#include <signal.h>
#include <stdatomic.h>
#include <string.h>
#include <sys/syscall.h>
#include <sys/uio.h>
#include <time.h>
#include <unistd.h>
static pthread_mutex_t lock = PTHREAD_MUTEX_INITIALIZER;
static sem_t rang;
static atomic_int count;
static char block[5000];
static volatile int x;
static int ends[2];

static void rings(union sigval v) { (void)v, x++, sem_post(&rang); }

/* A call of the system that the recorder does not know, in which the thread keeps its turn. */
static void waits_for_byte(void) {
    char byte;
    struct iovec into = {&byte, 1};
    if (syscall(SYS_readv, ends[0], &into, 1) == 1) x++;
}

static void *work(void *p) {
    const char *word = p;
    x++;
    if (!strcmp(word, "sections")) pthread_mutex_unlock(&lock);
    if (!strcmp(word, "order")) for (int k = 0; k < 3; k++) atomic_fetch_add_explicit(&count, 1, memory_order_relaxed);
    if (!strcmp(word, "parts")) for (int k = 0; k < 300; k++) memset(block, 1, sizeof block);
    if (!strcmp(word, "turns")) for (int k = 0; k < 300; k++) x++;
    if (!strcmp(word, "force") && syscall(SYS_write, ends[1], "b", 1) == 1) x++;
    return p;
}

static void beside(const char *word) {
    /* A plain access that may meet relaxed ones gives them order. */
    if (!strcmp(word, "order")) for (int k = 0; k < 3; k++) atomic_fetch_add_explicit(&count, 1, memory_order_relaxed);
    if (!strcmp(word, "order")) x += *(volatile int *)&count;
    if (!strcmp(word, "parts")) for (int k = 0; k < 5000; k++) x += block[k];
    if (!strcmp(word, "turns")) for (int k = 0; k < 300; k++) x++;
    if (!strcmp(word, "force")) waits_for_byte();
    if (!strcmp(word, "strangers")) {
        struct sigevent event = {.sigev_notify = SIGEV_THREAD, .sigev_notify_function = rings};
        struct itimerspec soon = {{0, 0}, {0, 1000000}};
        timer_t timer;
        timer_create(CLOCK_MONOTONIC, &event, &timer);
        timer_settime(timer, 0, &soon, NULL);
        while (sem_wait(&rang)) {}
    }
}

int main(int words, char **word) {
    pthread_t t;
    if (words < 2 || pipe(ends)) return 1;
    sem_init(&rang, 0, 0);
    if (!strcmp(word[1], "sections")) pthread_mutex_lock(&lock);
    pthread_create(&t, NULL, work, word[1]);
    beside(word[1]);
    return pthread_join(t, NULL);
}
