/* The racy twin sets the condition without the mutex. */
#include "pair.h"
static pthread_mutex_t mutex = PTHREAD_MUTEX_INITIALIZER;
static pthread_cond_t changed = PTHREAD_COND_INITIALIZER;
static int ready;

THREAD(sets) {
    IF_CLEAN(LOCK(mutex));
    ready = 1; /* RACE */
    IF_RACY(LOCK(mutex));
    pthread_cond_broadcast(&changed);
    UNLOCK(mutex);
    return argument;
}

THREAD(waits) {
    LOCK(mutex);
    while (!ready) pthread_cond_wait(&changed, &mutex); /* RACE */
    UNLOCK(mutex);
    return argument;
}

int main(void) {
    run_both(sets, waits);
    return 0;
}
