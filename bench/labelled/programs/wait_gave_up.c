/* A wait for a condition whose time runs out. The racy twin then reads without the mutex. */
#include "pair.h"
#include <time.h>
static pthread_mutex_t mutex = PTHREAD_MUTEX_INITIALIZER;
static pthread_cond_t changed = PTHREAD_COND_INITIALIZER;
static int data, seen;

THREAD(writes) {
    LOCK(mutex);
    data++; /* RACE */
    UNLOCK(mutex);
    return argument;
}

THREAD(waits) {
    struct timespec until;
    clock_gettime(CLOCK_REALTIME, &until);
    LOCK(mutex);
    while (pthread_cond_timedwait(&changed, &mutex, &until) != ETIMEDOUT) continue;
    IF_RACY(UNLOCK(mutex));
    seen = data; /* RACE */
    IF_CLEAN(UNLOCK(mutex));
    return argument;
}

int main(void) {
    run_both(writes, waits);
    return seen == 9;
}
