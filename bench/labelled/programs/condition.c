/* A consumer waits for a condition. The racy twin reads the data without a wait if it comes late. */
#include "pair.h"
static pthread_mutex_t mutex = PTHREAD_MUTEX_INITIALIZER;
static pthread_cond_t changed = PTHREAD_COND_INITIALIZER;
static int ready, data, seen;

THREAD(produces) {
    IF_CLEAN(data = 1;)
    LOCK(mutex);
    ready = 1;
    pthread_cond_signal(&changed);
    UNLOCK(mutex);
    IF_RACY(data = 1;) /* RACE */
    return argument;
}

THREAD(consumes) {
    LOCK(mutex);
    while (!ready) pthread_cond_wait(&changed, &mutex);
    UNLOCK(mutex);
    seen = data; /* RACE */
    return argument;
}

int main(void) {
    run_both(produces, consumes);
    return seen == 9;
}
