/* A lock of something else hides the race in half of all runs: whoever takes it first seems to come first. */
#include "pair.h"
static pthread_mutex_t mutex = PTHREAD_MUTEX_INITIALIZER;
static int value, other;

THREAD(first) {
    IF_RACY(value = 1;) /* RACE */
    LOCK(mutex);
    IF_CLEAN(value = 1;)
    other++;
    UNLOCK(mutex);
    return argument;
}

THREAD(second) {
    LOCK(mutex);
    other++;
    IF_CLEAN(value = 2;)
    UNLOCK(mutex);
    IF_RACY(value = 2;) /* RACE */
    return argument;
}

int main(void) {
    run_both(first, second);
    return value == 9;
}
