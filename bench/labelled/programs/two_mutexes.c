/* Both threads hold a mutex, but in the racy twin not the same one. */
#include "pair.h"
static pthread_mutex_t one = PTHREAD_MUTEX_INITIALIZER;
IF_RACY(static pthread_mutex_t other = PTHREAD_MUTEX_INITIALIZER;)
static int shared;

THREAD(first) {
    LOCK(one);
    shared = 1; /* RACE */
    UNLOCK(one);
    return argument;
}

THREAD(second) {
    pthread_mutex_t *mine = IF_RACY(&other) IF_CLEAN(&one);
    pthread_mutex_lock(mine);
    shared = 2; /* RACE */
    pthread_mutex_unlock(mine);
    return argument;
}

int main(void) {
    run_both(first, second);
    return shared == 9;
}
