/* A write between the fence and the store is not published. */
#include "pair.h"
#include <stdatomic.h>
static atomic_int flag;
static int data;

THREAD(sets) {
    IF_CLEAN(data = 5;)
    atomic_thread_fence(memory_order_release);
    IF_RACY(data = 5;) /* RACE */
    atomic_store_explicit(&flag, 1, memory_order_relaxed);
    return argument;
}

THREAD(waits) {
    while (!atomic_load_explicit(&flag, memory_order_acquire)) usleep(100);
    return data == 9 ? argument : NULL; /* RACE */
}

int main(void) {
    run_both(sets, waits);
    return 0;
}
