/* A handler of a signal runs in another thread than the one that sets the value; the clean twin joins that first. */
#include "pair.h"
#include <signal.h>
static volatile int value, seen;

static void handles(int number) { seen = value + number; } /* RACE */

THREAD(sets) {
    value = 1; /* RACE */
    return argument;
}

int main(void) {
    signal(SIGUSR1, handles);
    pthread_create(&first_thread, NULL, sets, NULL);
    IF_CLEAN(pthread_join(first_thread, NULL));
    raise(SIGUSR1);
    IF_RACY(pthread_join(first_thread, NULL));
    return seen == 9;
}
