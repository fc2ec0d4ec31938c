/* The look at the counter does not matter, but something without hooks decides the way. A schedule by value puts the
 * clock first, and then the program takes the other way. */
#include <pthread.h>
#include <stdio.h>

static int looks;
static long now, other;
static volatile int noted;

__attribute__((noinline, no_sanitize_thread)) static void note(void) { noted = 1; }
__attribute__((noinline, no_sanitize_thread)) static int is_noted(void) { return noted; }

static void *work(void *none) {
    long seen = now + other;
    note();
    looks = 0;
    return seen > 5 ? &looks : none;
}

static void *tick(void *none) {
    if (looks > 100) puts("many looks");
    if (is_noted()) now = 1;
    else other = 2;
    return none;
}

int main(void) {
    pthread_t worker, clock;
    looks = 0;
    pthread_create(&worker, NULL, work, NULL);
    pthread_create(&clock, NULL, tick, NULL);
    pthread_join(worker, NULL);
    pthread_join(clock, NULL);
    return 0;
}
