/* A reader that tries again if a writer came. The racy data are plain variables. */
#include "pair.h"
#include <stdatomic.h>
static atomic_uint sequence;
static IF_RACY(int) IF_CLEAN(atomic_int) low, high;
#ifdef RACY
#define SET(variable, value) ((variable) = (value))
#define GET(variable) (variable)
#else
#define SET(variable, value) atomic_store_explicit(&(variable), value, memory_order_relaxed)
#define GET(variable) atomic_load_explicit(&(variable), memory_order_relaxed)
#endif

THREAD(writes) {
    atomic_fetch_add(&sequence, 1);
    SET(low, 1); /* RACE */
    SET(high, 1); /* RACE */
    atomic_fetch_add(&sequence, 1);
    return argument;
}

THREAD(reads) {
    unsigned before, after;
    int a, b;
    do {
        before = atomic_load(&sequence);
        a = GET(low); /* RACE */
        b = GET(high); /* RACE */
        atomic_thread_fence(memory_order_acquire);
        after = atomic_load(&sequence);
    } while (before != after || before % 2);
    return a + b == 9 ? argument : NULL;
}

int main(void) {
    run_both(writes, reads);
    return 0;
}
