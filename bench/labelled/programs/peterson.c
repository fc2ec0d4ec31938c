/* Peterson's lock for two threads. It needs sequential consistency; the racy one has release and acquire stores only
 * on its flags, and no order at all on its turn. */
#include "pair.h"
#include <sched.h>
#include <stdatomic.h>
#define SET IF_RACY(memory_order_relaxed) IF_CLEAN(memory_order_seq_cst)
static atomic_int wants[2], turn;
static int value;

static void change(int mine) {
    atomic_store_explicit(&wants[mine], 1, SET);
    atomic_store_explicit(&turn, !mine, SET);
    while (atomic_load_explicit(&wants[!mine], SET) && atomic_load_explicit(&turn, SET) == !mine) sched_yield();
    value++; /* RACE */
    atomic_store_explicit(&wants[mine], 0, SET);
}

THREAD(first) {
    change(0);
    return argument;
}

THREAD(second) {
    change(1);
    return argument;
}

int main(void) {
    run_both(first, second);
    return value == 9;
}
