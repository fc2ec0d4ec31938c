/* Two threads raise a counter. The racy twin takes no lock. */
#include "pair.h"
static pthread_mutex_t mutex = PTHREAD_MUTEX_INITIALIZER;
static int counter;

THREAD(raises) {
    IF_CLEAN(LOCK(mutex));
    counter++; /* RACE */
    IF_CLEAN(UNLOCK(mutex));
    return argument;
}

int main(void) {
    run_both(raises, raises);
    printf("%d\n", counter);
    return 0;
}
