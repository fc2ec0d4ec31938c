/* The racy twin goes on although its try did not get the mutex. */
#include "pair.h"
static pthread_mutex_t mutex = PTHREAD_MUTEX_INITIALIZER;
static int value;

THREAD(holds) {
    LOCK(mutex);
    value = 1; /* RACE */
    usleep(2000);
    value = 2; /* RACE */
    UNLOCK(mutex);
    return argument;
}

THREAD(tries) {
    usleep(500);
    int failed = pthread_mutex_trylock(&mutex);
    if (IF_CLEAN(!failed) IF_RACY(1)) value++; /* RACE */
    if (!failed) UNLOCK(mutex);
    return argument;
}

int main(void) {
    run_both(holds, tries);
    return value == 9;
}
