/* The racy twin frees a block with a mutex that the other thread may still let go of. */
#include "pair.h"
struct block {
    pthread_mutex_t mutex;
    int used;
};
static struct block *block;

THREAD(uses) {
    LOCK(block->mutex); /* RACE */
    UNLOCK(block->mutex); /* RACE */
    return argument;
}

THREAD(frees) {
    IF_RACY(usleep(1000);)
    IF_RACY(free(block);) /* RACE */
    return argument;
}

int main(void) {
    block = calloc(1, sizeof *block);
    run_both(uses, frees);
    IF_CLEAN(free(block));
    return 0;
}
