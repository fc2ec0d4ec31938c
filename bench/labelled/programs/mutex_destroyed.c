/* The racy twin destroys a mutex that the other thread may still take. */
#include "pair.h"
static pthread_mutex_t mutex = PTHREAD_MUTEX_INITIALIZER;

THREAD(uses) {
    LOCK(mutex); /* RACE */
    UNLOCK(mutex); /* RACE */
    return argument;
}

THREAD(destroys) {
    IF_RACY(usleep(1000);)
    IF_RACY(pthread_mutex_destroy(&mutex);) /* RACE */
    return argument;
}

int main(void) {
    run_both(uses, destroys);
    IF_CLEAN(pthread_mutex_destroy(&mutex));
    return 0;
}
