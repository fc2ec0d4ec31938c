/* The value of a look decides the way. The clock goes on only after the worker's 1, so the time is never accessed by
 * both at once. */
#include <pthread.h>

static int is_done;
static long now;

static void *work(void *none) {
    long seen = now;
    is_done = 1;
    return seen > 5 ? &is_done : none;
}

static void *tick(void *none) {
    if (is_done) now = 1;
    return none;
}

int main(void) {
    pthread_t worker, clock;
    is_done = 0;
    pthread_create(&worker, NULL, work, NULL);
    pthread_create(&clock, NULL, tick, NULL);
    pthread_join(worker, NULL);
    pthread_join(clock, NULL);
    return 0;
}
