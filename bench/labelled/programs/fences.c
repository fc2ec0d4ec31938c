/* Fences give relaxed accesses their order. The racy reader has none. */
#include "pair.h"
#include <stdatomic.h>
static atomic_int flag;
static int data;

THREAD(sets) {
    data = 5; /* RACE */
    atomic_thread_fence(memory_order_release);
    atomic_store_explicit(&flag, 1, memory_order_relaxed);
    return argument;
}

THREAD(waits) {
    while (!atomic_load_explicit(&flag, memory_order_relaxed)) usleep(100);
    IF_CLEAN(atomic_thread_fence(memory_order_acquire));
    return data == 9 ? argument : NULL; /* RACE */
}

int main(void) {
    run_both(sets, waits);
    return 0;
}
