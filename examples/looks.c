/* A look at a counter hides a race, although its value does not matter. If the worker comes first, the clock sees the
 * worker's 0, so its write of the time comes after the worker's read. But the counter had a 0 before, too. */
#include <pthread.h>
#include <stdio.h>

static int looks;
static long now;

static void *work(void *none) {
    long seen = now;
    looks = 0;
    return seen > 5 ? &looks : none;
}

static void *tick(void *none) {
    if (looks > 100) puts("many looks");
    now = 1;
    return none;
}

int main(void) {
    pthread_t worker, clock;
    looks = 0;
    pthread_create(&worker, NULL, work, NULL);
    pthread_create(&clock, NULL, tick, NULL);
    pthread_join(worker, NULL);
    pthread_join(clock, NULL);
    return 0;
}
