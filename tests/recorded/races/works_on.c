/* After its race the program computes on the first processor that it may use, for half a second of processor time. If it
 * has an argument, it waits there for ever. */
#define _GNU_SOURCE
#include <pthread.h>
#include <sched.h>
#include <time.h>
#include <unistd.h>

static int hits;

static void *count(void *p) {
    hits++;
    return p;
}

static void use_one_processor(void) {
    cpu_set_t all, one;
    int first = 0;
    sched_getaffinity(0, sizeof all, &all);
    while (first < CPU_SETSIZE - 1 && !CPU_ISSET(first, &all)) first++;
    CPU_ZERO(&one);
    CPU_SET(first, &one);
    sched_setaffinity(0, sizeof one, &one);
}

int main(int argc, char **argv) {
    pthread_t thread;
    (void)argv;
    pthread_create(&thread, NULL, count, NULL);
    hits++;
    pthread_join(thread, NULL);
    use_one_processor();
    while (argc > 1) pause();
    while (clock() < CLOCKS_PER_SEC / 2) continue;
    return 7;
}
