/* A flag publishes data. The racy store and load are relaxed. */
#include "pair.h"
#include <stdatomic.h>
#define SET IF_RACY(memory_order_relaxed) IF_CLEAN(memory_order_release)
#define GET IF_RACY(memory_order_relaxed) IF_CLEAN(memory_order_acquire)
static atomic_int flag;
static int data;

THREAD(sets) {
    data = 5; /* RACE */
    atomic_store_explicit(&flag, 1, SET);
    return argument;
}

THREAD(waits) {
    while (!atomic_load_explicit(&flag, GET)) usleep(100);
    return data == 9 ? argument : NULL; /* RACE */
}

int main(void) {
    run_both(sets, waits);
    return 0;
}
