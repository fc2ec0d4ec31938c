/* Data go from one thread to the other beside numbers that both draw, and drawing gives no order. The clean twin holds
 * a mutex. */
#include "pair.h"
static pthread_mutex_t mutex = PTHREAD_MUTEX_INITIALIZER;
static int data;

THREAD(writes) {
    IF_CLEAN(LOCK(mutex));
    data = 1; /* RACE data */
    double drawn = drand48(); /* RACE state */
    IF_CLEAN(UNLOCK(mutex));
    return drawn == 9 ? argument : NULL;
}

THREAD(reads) {
    IF_CLEAN(LOCK(mutex));
    double drawn = drand48(); /* RACE state */
    int seen = data; /* RACE data */
    IF_CLEAN(UNLOCK(mutex));
    return seen + drawn == 9 ? argument : NULL;
}

int main(void) {
    run_both(writes, reads);
    return 0;
}
