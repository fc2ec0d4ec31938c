/* A lock of the program's own. The racy one is let go by a relaxed store. */
#include "pair.h"
#include <sched.h>
#include <stdatomic.h>
static atomic_int held;
static int value;

THREAD(changes) {
    for (int expected = 0; !atomic_compare_exchange_strong(&held, &expected, 1); expected = 0) sched_yield();
    value++; /* RACE */
    atomic_store_explicit(&held, 0, IF_RACY(memory_order_relaxed) IF_CLEAN(memory_order_release));
    return argument;
}

int main(void) {
    run_both(changes, changes);
    return value == 9;
}
