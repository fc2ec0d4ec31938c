/* A section of a mutex between the two accesses touches nothing, so it may come first or last. */
#include "pair.h"
static pthread_mutex_t mutex = PTHREAD_MUTEX_INITIALIZER;
static int value;

THREAD(first) {
    IF_RACY(value = 1;) /* RACE */
    LOCK(mutex);
    IF_CLEAN(value = 1;)
    UNLOCK(mutex);
    return argument;
}

THREAD(second) {
    LOCK(mutex);
    IF_CLEAN(value++;)
    UNLOCK(mutex);
    IF_RACY(value++;) /* RACE */
    return argument;
}

int main(void) {
    run_both(first, second);
    return value == 9;
}
