/* A lock of the program's own. The racy one is taken by an exchange that releases alone. */
#include "pair.h"
#include <sched.h>
#include <stdatomic.h>
static atomic_int held;
static int value;

THREAD(changes) {
    while (atomic_exchange_explicit(&held, 1, IF_RACY(memory_order_release) IF_CLEAN(memory_order_acquire)))
        sched_yield();
    value++; /* RACE */
    atomic_store_explicit(&held, 0, memory_order_release);
    return argument;
}

int main(void) {
    run_both(changes, changes);
    return value == 9;
}
