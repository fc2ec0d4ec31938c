/* A lock made of an atomic_flag. The racy twin does not wait until it is clear. */
#include "pair.h"
#include <sched.h>
#include <stdatomic.h>
static atomic_flag flag = ATOMIC_FLAG_INIT;
static int value;

THREAD(changes) {
    IF_CLEAN(while) IF_RACY(if) (atomic_flag_test_and_set(&flag)) sched_yield();
    value++; /* RACE */
    atomic_flag_clear(&flag);
    return argument;
}

int main(void) {
    run_both(changes, changes);
    return value == 9;
}
