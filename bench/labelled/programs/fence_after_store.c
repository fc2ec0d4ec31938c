/* The racy writer has its fence after the store, where it orders nothing. */
#include "pair.h"
#include <stdatomic.h>
static atomic_int flag;
static int data;

THREAD(sets) {
    data = 5; /* RACE */
    IF_CLEAN(atomic_thread_fence(memory_order_release);)
    atomic_store_explicit(&flag, 1, memory_order_relaxed);
    IF_RACY(atomic_thread_fence(memory_order_release);)
    return argument;
}

THREAD(waits) {
    while (!atomic_load_explicit(&flag, memory_order_relaxed)) usleep(100);
    atomic_thread_fence(memory_order_acquire);
    return data == 9 ? argument : NULL; /* RACE */
}

int main(void) {
    run_both(sets, waits);
    return 0;
}
