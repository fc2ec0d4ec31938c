/* One thread stores by an atomic access, and the racy other reads by a plain one. */
#include "pair.h"
static int value;

THREAD(stores) {
    __atomic_store_n(&value, 1, __ATOMIC_SEQ_CST); /* RACE */
    return argument;
}

THREAD(reads) {
    int seen = IF_RACY(value) IF_CLEAN(__atomic_load_n(&value, __ATOMIC_SEQ_CST)); /* RACE */
    return seen == 9 ? argument : NULL;
}

int main(void) {
    run_both(stores, reads);
    return 0;
}
