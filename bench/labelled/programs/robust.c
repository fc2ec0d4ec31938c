/* A thread ends while it holds a robust mutex. The racy twin then reads without the mutex. */
#include "pair.h"
static pthread_mutex_t mutex;
static int value, seen;

THREAD(dies) {
    LOCK(mutex);
    value = 1; /* RACE */
    return argument;
}

THREAD(follows) {
    int answer = IF_CLEAN(LOCK(mutex)) IF_RACY(ENOENT);
    if (answer == EOWNERDEAD) pthread_mutex_consistent(&mutex);
    seen = value; /* RACE */
    IF_CLEAN(UNLOCK(mutex));
    return argument;
}

int main(void) {
    pthread_mutexattr_t attributes;
    pthread_mutexattr_init(&attributes);
    pthread_mutexattr_setrobust(&attributes, PTHREAD_MUTEX_ROBUST);
    pthread_mutex_init(&mutex, &attributes);
    run_both(dies, follows);
    return seen == 9;
}
