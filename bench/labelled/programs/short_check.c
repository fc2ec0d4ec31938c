/* A thread of a few accesses sees the other's half-made state, and only then there is a race. */
#include "pair.h"
#include <stdatomic.h>
static atomic_int state;
static int data;

THREAD(makes) {
    atomic_store(&state, 1);
    data = 5; /* RACE */
    atomic_store(&state, 2);
    return argument;
}

THREAD(looks) {
    int now = atomic_load(&state);
    if (now == IF_RACY(1) IF_CLEAN(2)) return data == 9 ? argument : NULL; /* RACE */
    return argument;
}

int main(void) {
    run_both(makes, looks);
    return 0;
}
