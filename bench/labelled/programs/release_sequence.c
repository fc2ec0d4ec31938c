/* A thread changes the flag between the release and the acquire. An addition keeps the release's order; the racy store
 * does not. */
#include "pair.h"
#include <stdatomic.h>
static atomic_int flag;
static int data;

THREAD(sets) {
    data = 5; /* RACE */
    atomic_store_explicit(&flag, 1, memory_order_release);
    return argument;
}

THREAD(changes) {
    while (atomic_load_explicit(&flag, memory_order_relaxed) != 1) usleep(100);
    IF_CLEAN(atomic_fetch_add_explicit(&flag, 1, memory_order_relaxed));
    IF_RACY(atomic_store_explicit(&flag, 2, memory_order_relaxed));
    return argument;
}

int main(void) {
    start_both(sets, changes);
    while (atomic_load_explicit(&flag, memory_order_acquire) != 2) usleep(100);
    int seen = data; /* RACE */
    join_both();
    return seen == 9;
}
