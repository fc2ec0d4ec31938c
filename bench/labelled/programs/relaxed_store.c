/* An acquire load that sees a relaxed store gets no order from it. */
#include "pair.h"
#include <stdatomic.h>
static atomic_int flag;
static int data;

THREAD(sets) {
    data = 5; /* RACE */
    atomic_store_explicit(&flag, 1, IF_RACY(memory_order_relaxed) IF_CLEAN(memory_order_release));
    return argument;
}

THREAD(waits) {
    while (!atomic_load_explicit(&flag, memory_order_acquire)) usleep(100);
    return data == 9 ? argument : NULL; /* RACE */
}

int main(void) {
    run_both(sets, waits);
    return 0;
}
