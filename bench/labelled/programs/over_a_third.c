/* Data go from the first thread over a second to a third, by two flags. In the racy twin the first flag is relaxed. */
#include "pair.h"
#include <stdatomic.h>
static atomic_int one, two;
static int data;

THREAD(sets) {
    data = 5; /* RACE */
    atomic_store_explicit(&one, 1, IF_RACY(memory_order_relaxed) IF_CLEAN(memory_order_release));
    return argument;
}

THREAD(passes_on) {
    while (!atomic_load_explicit(&one, memory_order_acquire)) usleep(100);
    atomic_store_explicit(&two, 1, memory_order_release);
    return argument;
}

int main(void) {
    start_both(sets, passes_on);
    while (!atomic_load_explicit(&two, memory_order_acquire)) usleep(100);
    int seen = data; /* RACE */
    join_both();
    return seen == 9;
}
