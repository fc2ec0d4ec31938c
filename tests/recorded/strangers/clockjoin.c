/* Joins that have a time limit, by each clock, and joins that are tried. */
#define _GNU_SOURCE
#include <pthread.h>
#include <stdio.h>
#include <time.h>
#include <unistd.h>
static int x;
static void *work(void *p) {
    usleep(1000);
    x++;
    return p;
}
int main(void) {
    pthread_t t;
    struct timespec late;
    pthread_create(&t, NULL, work, NULL);
    clock_gettime(CLOCK_MONOTONIC, &late), late.tv_sec += 600;
    if (pthread_clockjoin_np(t, NULL, CLOCK_MONOTONIC, &late)) return 1;
    x++;
    pthread_create(&t, NULL, work, NULL);
    clock_gettime(CLOCK_REALTIME, &late), late.tv_sec += 600;
    if (pthread_timedjoin_np(t, NULL, &late)) return 1;
    x++;
    pthread_create(&t, NULL, work, NULL);
    while (pthread_tryjoin_np(t, NULL)) usleep(100);
    printf("%d\n", x);
    return 0;
}
