/* A thread of a few accesses: the other has to come right between its check and its use. */
#include "pair.h"
static pthread_mutex_t mutex = PTHREAD_MUTEX_INITIALIZER;
static int state, used;

THREAD(uses) {
    LOCK(mutex);
    state = 1;
    UNLOCK(mutex);
    LOCK(mutex);
    state = 2;
    UNLOCK(mutex);
    return argument;
}

THREAD(looks) {
    LOCK(mutex);
    int now = state;
    UNLOCK(mutex);
    if (now == 1) {
        IF_CLEAN(LOCK(mutex));
        used++; /* RACE */
        IF_CLEAN(UNLOCK(mutex));
    }
    return argument;
}

int main(void) {
    pthread_t third;
    pthread_create(&third, NULL, looks, NULL);
    run_both(uses, looks);
    pthread_join(third, NULL);
    return used == 9;
}
