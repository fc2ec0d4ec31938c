/* The racy twin goes on after its time to get the mutex ran out. */
#include "pair.h"
#include <time.h>
static pthread_mutex_t mutex = PTHREAD_MUTEX_INITIALIZER;
static sem_t held, late;
static int value;

THREAD(holds) {
    LOCK(mutex);
    sem_post(&held);
    value = 1; /* RACE */
    sem_wait(&late);
    value = 2; /* RACE */
    UNLOCK(mutex);
    return argument;
}

THREAD(tries) {
    struct timespec until;
    sem_wait(&held);
    clock_gettime(CLOCK_REALTIME, &until);
    until.tv_nsec += 1000000;
    if (until.tv_nsec >= 1000000000) until.tv_nsec -= 1000000000, until.tv_sec++;
    int failed = pthread_mutex_timedlock(&mutex, &until);
    if (IF_CLEAN(!failed) IF_RACY(1)) value++; /* RACE */
    if (!failed) UNLOCK(mutex);
    sem_post(&late);
    return argument;
}

int main(void) {
    sem_init(&held, 0, 0), sem_init(&late, 0, 0);
    run_both(holds, tries);
    return value == 9;
}
