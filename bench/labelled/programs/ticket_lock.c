/* A lock that serves tickets in order. The racy twin takes its ticket without an atomic addition. */
#include "pair.h"
#include <sched.h>
#include <stdatomic.h>
static atomic_uint serving;
static IF_RACY(unsigned) IF_CLEAN(atomic_uint) next_ticket;
static int value;

THREAD(changes) {
    unsigned mine = next_ticket++; /* RACE */
    for (int tries = 0; serving != mine && IF_RACY(tries < 500) IF_CLEAN(1); tries++) sched_yield();
    IF_CLEAN(value++;)
    serving++;
    return argument;
}

int main(void) {
    run_both(changes, changes);
    return value == 9;
}
