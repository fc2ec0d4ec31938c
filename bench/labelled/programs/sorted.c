/* One thread sorts an array, and the racy other reads a part of it. */
#include "pair.h"
static int numbers[6] = {5, 3, 4, 1, 2, 0};

static int compare(const void *a, const void *b) { return *(const int *)a - *(const int *)b; } /* RACE */

THREAD(sorts) {
    qsort(numbers, IF_RACY(6) IF_CLEAN(5), sizeof *numbers, compare); /* RACE */
    return argument;
}

THREAD(reads) {
    return numbers[5] == 9 ? argument : NULL; /* RACE */
}

int main(void) {
    run_both(sorts, reads);
    return 0;
}
