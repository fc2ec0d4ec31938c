/* Threads that meet at one barrier again and again: who leaves a meeting late is not ordered with who comes to the next
 * one. So what both do between two meetings is a race, and what they do on both sides of a meeting is no race. */
#include <pthread.h>
static pthread_barrier_t all;
static int racy, by_first, by_other;

static void *first(void *p) {
    for (int round = 0; round < 3; round++) {
        by_first = round;
        pthread_barrier_wait(&all);
        by_other++;
        racy++; // RACE
        pthread_barrier_wait(&all);
    }
    return p;
}

static void *other(void *p) {
    for (int round = 0; round < 3; round++) {
        by_other = round;
        pthread_barrier_wait(&all);
        by_first++;
        racy++; // RACE
        pthread_barrier_wait(&all);
    }
    return p;
}

int main(void) {
    pthread_t t[2];
    pthread_barrier_init(&all, 0, 2);
    pthread_create(&t[0], 0, first, 0), pthread_create(&t[1], 0, other, 0);
    pthread_join(t[0], 0), pthread_join(t[1], 0);
    return racy != 6;
}
