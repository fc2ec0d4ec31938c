/* memset and memcpy go over one buffer; the clean twin gives each thread a half. */
#include "pair.h"
static char buffer[64], copy[32];

THREAD(sets) {
    memset(buffer, 1, IF_RACY(40) IF_CLEAN(32)); /* RACE */
    return argument;
}

THREAD(copies) {
    memcpy(copy, buffer + 32, sizeof copy); /* RACE */
    return argument;
}

int main(void) {
    run_both(sets, copies);
    return copy[0] == 9;
}
