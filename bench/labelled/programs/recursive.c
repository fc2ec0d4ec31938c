/* A recursive mutex is taken twice. The racy twin lets go of it twice before it writes. */
#include "pair.h"
static pthread_mutex_t mutex;
static int value;

THREAD(changes) {
    LOCK(mutex);
    LOCK(mutex);
    UNLOCK(mutex);
    IF_RACY(UNLOCK(mutex));
    value++; /* RACE */
    IF_CLEAN(UNLOCK(mutex));
    return argument;
}

int main(void) {
    pthread_mutexattr_t attributes;
    pthread_mutexattr_init(&attributes);
    pthread_mutexattr_settype(&attributes, PTHREAD_MUTEX_RECURSIVE);
    pthread_mutex_init(&mutex, &attributes);
    run_both(changes, changes);
    return value == 9;
}
