/* A block is freed while the other thread may read it; the clean twin frees it after the join. */
#include "pair.h"
static int *block;

THREAD(reads) {
    return *block == 9 ? argument : NULL; /* RACE */
}

THREAD(frees) {
    IF_RACY(usleep(1000);)
    IF_RACY(free(block);) /* RACE */
    return argument;
}

int main(void) {
    block = calloc(1, sizeof *block);
    run_both(reads, frees);
    IF_CLEAN(free(block));
    return 0;
}
