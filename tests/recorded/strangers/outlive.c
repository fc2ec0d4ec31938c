/* A thread that outlives main, and what is done at the end. The flag orders nothing. */
#include <pthread.h>
#include <stdatomic.h>
#include <stdio.h>
#include <stdlib.h>
#include <unistd.h>
static int x, y;
static atomic_int begun;
static void *work(void *p) {
    y = 1;
    for (;;) {
        x++; /* RACE */
        atomic_store_explicit(&begun, 1, memory_order_relaxed);
        usleep(1000);
    }
    return p;
}
static void at_end(void) {
    x = 5; /* RACE */
    puts("end");
}
int main(void) {
    pthread_t t;
    atexit(at_end);
    pthread_create(&t, NULL, work, NULL);
    pthread_detach(t);
    while (!atomic_load_explicit(&begun, memory_order_relaxed)) usleep(1000);
    return 3;
}
