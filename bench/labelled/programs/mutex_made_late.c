/* The racy twin makes the mutex in one thread while the other may take it. */
#include "pair.h"
static pthread_mutex_t mutex;

THREAD(makes) {
    IF_RACY(pthread_mutex_init(&mutex, NULL);) /* RACE */
    return argument;
}

THREAD(uses) {
    usleep(1000);
    LOCK(mutex); /* RACE */
    UNLOCK(mutex); /* RACE */
    return argument;
}

int main(void) {
    IF_CLEAN(pthread_mutex_init(&mutex, NULL));
    run_both(makes, uses);
    return 0;
}
