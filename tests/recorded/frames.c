/* Variables in frames, and those that each thread has, whose names are judged. Two threads use each. */
#include <alloca.h>
#include <pthread.h>
#include <setjmp.h>
#include <stdlib.h>
#include <string.h>

struct job {
    int *sum, *own, *row, *aside;
    struct pair {
        int a, b;
    } pairs[3];
    pthread_mutex_t *lock;
};
static __thread int own;
static __thread struct job of_thread;
static jmp_buf out;
#define CALLED __attribute__((noinline)) static

static void *work(void *p) {
    struct job *job = p;
    pthread_mutex_lock(job->lock);
    ++*job->sum;
    job->pairs[1].b++;
    ++*job->own;
    job->row[3]++;
    job->aside[1]++;
    pthread_mutex_unlock(job->lock);
    return NULL;
}

static void share(struct job *job) {
    pthread_t thread;
    if (pthread_create(&thread, NULL, work, job)) exit(1);
    pthread_join(thread, NULL);
}

/* Each call has other variables, although they are at one address. */
CALLED int round_of(int count) {
    int sum = 0, row[count];
    pthread_mutex_t lock = PTHREAD_MUTEX_INITIALIZER;
    int *aside = alloca(32);
    memset(row, 0, sizeof row);
    aside[1] = 0;
    struct job job = {&sum, &own, row, aside, {{0, 0}}, &lock};
    share(&job);
    return sum + job.pairs[1].b + row[3] + aside[1];
}

CALLED int deeper(int depth, int *above) {
    int mine = depth, row[4] = {0}, aside[2] = {0};
    pthread_mutex_t lock = PTHREAD_MUTEX_INITIALIZER;
    struct job job = {&mine, above, row, aside, {{0, 0}}, &lock};
    share(&job);
    return mine + (depth ? deeper(depth - 1, &mine) : 0);
}

CALLED void leave(int *sum) {
    int row[8] = {0}, aside[8] = {0};
    pthread_mutex_t lock = PTHREAD_MUTEX_INITIALIZER;
    struct job job = {sum, sum, row, aside, {{0, 0}}, &lock};
    share(&job);
    longjmp(out, 1);
}

CALLED int jumped(void) {
    volatile int times = 0;
    int after = 0, row[4] = {0}, aside[2] = {0};
    pthread_mutex_t lock = PTHREAD_MUTEX_INITIALIZER;
    if (!setjmp(out)) leave(&of_thread.pairs[2].a);
    times++;
    struct job job = {&after, &of_thread.pairs[1].b, row, aside, {{0, 0}}, &lock};
    share(&job);
    return after + times + of_thread.pairs[1].b + of_thread.pairs[2].a;
}

int main(void) {
    int sum = round_of(4) + round_of(6), top = 0;
    sum += deeper(1, &top) + jumped();
    return sum < 0;
}
