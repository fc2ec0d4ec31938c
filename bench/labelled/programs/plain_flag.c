/* One thread waits for a flag of the other. The racy flag is a plain volatile variable. */
#include "pair.h"
#include <stdatomic.h>
static IF_RACY(volatile int) IF_CLEAN(atomic_int) flag;
static int data;

THREAD(sets) {
    data = 5; /* RACE */
    flag = 1; /* RACE */
    return argument;
}

THREAD(waits) {
    while (!flag) usleep(100); /* RACE */
    if (data != 5) abort(); /* RACE */
    return argument;
}

int main(void) {
    run_both(sets, waits);
    return 0;
}
