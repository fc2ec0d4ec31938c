/* Two threads write bytes of one array. The racy twin has one of them in common. */
#include "pair.h"
static char bytes[4];

THREAD(first) {
    bytes[0] = 1;
    bytes[1] = 1; /* RACE */
    return argument;
}

THREAD(second) {
    bytes[IF_RACY(1) IF_CLEAN(2)] = 2; /* RACE */
    bytes[3] = 2;
    return argument;
}

int main(void) {
    run_both(first, second);
    return bytes[0] == 9;
}
