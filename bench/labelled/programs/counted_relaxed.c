/* The last owner of a block frees it. The racy count goes down by relaxed accesses. */
#include "pair.h"
#include <stdatomic.h>
#define DOWN IF_RACY(memory_order_relaxed) IF_CLEAN(memory_order_acq_rel)
struct block {
    atomic_int owners;
    int value;
};
static struct block *block;

THREAD(owns) {
    block->value++; /* RACE */
    if (atomic_fetch_sub_explicit(&block->owners, 1, DOWN) == 1) /* RACE */
        free(block); /* RACE */
    return argument;
}

THREAD(owns_too) {
    if (atomic_fetch_sub_explicit(&block->owners, 1, DOWN) == 1) /* RACE */
        free(block); /* RACE */
    return argument;
}

int main(void) {
    block = calloc(1, sizeof *block);
    atomic_init(&block->owners, 2);
    run_both(owns, owns_too);
    return 0;
}
