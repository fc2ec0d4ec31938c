/* One thread makes the union of two sets of signals in the set that the racy other reads. */
#include "pair.h"
#include <signal.h>
static sigset_t sets[3];

THREAD(joins) {
    sigorset(&sets[0], &sets[1], &sets[1]); /* RACE */
    return argument;
}

THREAD(looks) {
    int is_in = sigismember(&sets[IF_RACY(0) IF_CLEAN(2)], SIGINT); /* RACE */
    return is_in == 9 ? argument : NULL;
}

int main(void) {
    run_both(joins, looks);
    return 0;
}
