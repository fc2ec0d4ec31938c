/* The writer holds the mutex, and the racy reader does not. */
#include "pair.h"
static pthread_mutex_t mutex = PTHREAD_MUTEX_INITIALIZER;
static int value, seen;

THREAD(writes) {
    LOCK(mutex);
    value = 7; /* RACE */
    UNLOCK(mutex);
    return argument;
}

THREAD(reads) {
    IF_CLEAN(LOCK(mutex));
    seen = value; /* RACE */
    IF_CLEAN(UNLOCK(mutex));
    return argument;
}

int main(void) {
    run_both(writes, reads);
    return seen == 9;
}
