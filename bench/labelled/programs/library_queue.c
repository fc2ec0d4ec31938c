/* LIBRARY queue_without_hooks.c
 * A block goes through a queue of a library that was compiled without hooks. The racy twin changes the block after it
 * put it there. */
#include "pair.h"
void queue_put(void *item);
void *queue_get(void);

THREAD(puts_block) {
    int *block = malloc(sizeof *block);
    *block = 1;
    queue_put(block);
    IF_RACY(*block = 2;) /* RACE */
    return argument;
}

THREAD(gets_block) {
    int *block = queue_get();
    int seen = *block; /* RACE */
    IF_CLEAN(free(block));
    return seen == 9 ? argument : NULL;
}

int main(void) {
    run_both(puts_block, gets_block);
    return 0;
}
