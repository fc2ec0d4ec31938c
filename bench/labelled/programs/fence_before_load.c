/* The racy reader has its fence before the loads, and no load after them has an order. */
#include "pair.h"
#include <stdatomic.h>
static atomic_int flag;
static int data;

THREAD(sets) {
    data = 5; /* RACE */
    atomic_thread_fence(memory_order_release);
    atomic_store_explicit(&flag, 1, memory_order_relaxed);
    return argument;
}

THREAD(waits) {
    IF_RACY(atomic_thread_fence(memory_order_acquire);)
    while (!atomic_load_explicit(&flag, memory_order_relaxed)) usleep(100);
    IF_CLEAN(atomic_thread_fence(memory_order_acquire);)
    return data == 9 ? argument : NULL; /* RACE */
}

int main(void) {
    run_both(sets, waits);
    return 0;
}
