/* Three threads poll an atomic counter each, as the threads of a server do, until the main thread has work for them. It
 * gives out N pieces of work. Without a race. */
#include <pthread.h>
#include <sched.h>
#include <stdatomic.h>
#include <stdio.h>
#include <stdlib.h>

enum { THREADS = 3, POLLS = 1000 };
static struct {
    atomic_long pending;
    long work, sum;
} of[THREADS];

static void *serve(void *number) {
    size_t k = (size_t)number;
    for (;;) {
        for (int poll = 0; poll < POLLS && !atomic_load(&of[k].pending); poll++) {}
        if (!atomic_load(&of[k].pending)) {
            sched_yield();
            continue;
        }
        if (of[k].work < 0) return NULL;
        of[k].sum += of[k].work;
        atomic_store(&of[k].pending, 0);
    }
}

static void give(size_t k, long work) {
    while (atomic_load(&of[k].pending)) sched_yield();
    of[k].work = work;
    atomic_store(&of[k].pending, 1);
}

int main(int count, char **arguments) {
    long pieces = count > 1 ? atol(arguments[1]) : 30;
    pthread_t threads[THREADS];
    for (size_t k = 0; k < THREADS; k++)
        if (pthread_create(&threads[k], NULL, serve, (void *)k)) return 1;
    for (long piece = 0; piece < pieces; piece++) give((size_t)piece % THREADS, piece);
    long sum = 0;
    for (size_t k = 0; k < THREADS; k++) {
        give(k, -1);
        pthread_join(threads[k], NULL);
        sum += of[k].sum;
    }
    printf("%ld\n", sum);
    return 0;
}
