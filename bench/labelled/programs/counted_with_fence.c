/* The last owner of a block frees it. A fence before the free orders it after all uses; the racy twin has none. */
#include "pair.h"
#include <stdatomic.h>
struct block {
    atomic_int owners;
    int value;
};
static struct block *block;

static void leave(void) {
    if (atomic_fetch_sub_explicit(&block->owners, 1, memory_order_release) != 1) return; /* RACE */
    IF_CLEAN(atomic_thread_fence(memory_order_acquire));
    free(block); /* RACE */
}

THREAD(owns) {
    block->value++; /* RACE */
    leave();
    return argument;
}

THREAD(owns_too) {
    leave();
    return argument;
}

int main(void) {
    block = calloc(1, sizeof *block);
    atomic_init(&block->owners, 2);
    run_both(owns, owns_too);
    return 0;
}
