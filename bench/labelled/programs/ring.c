/* A ring with one producer and one consumer. The racy producer publishes its index by a relaxed store. */
#include "pair.h"
#include <stdatomic.h>
#define ITEMS 3
static int slots[ITEMS];
static atomic_int produced;

THREAD(produces) {
    for (int k = 0; k < ITEMS; k++) {
        slots[k] = k + 1; /* RACE */
        atomic_store_explicit(&produced, k + 1, IF_RACY(memory_order_relaxed) IF_CLEAN(memory_order_release));
    }
    return argument;
}

THREAD(consumes) {
    int sum = 0;
    for (int k = 0; k < ITEMS; k++) {
        while (atomic_load_explicit(&produced, memory_order_acquire) <= k) usleep(100);
        sum += slots[k]; /* RACE */
    }
    return sum == 9 ? argument : NULL;
}

int main(void) {
    run_both(produces, consumes);
    return 0;
}
