/* Two threads print into one buffer; the clean twin has a buffer for each. */
#include "pair.h"
static char buffers[2][32];

THREAD(first) {
    snprintf(buffers[0], 32, "%d", 1); /* RACE */
    return argument;
}

THREAD(second) {
    snprintf(buffers[IF_CLEAN(1) IF_RACY(0)], 32, "%s", "two"); /* RACE */
    return argument;
}

int main(void) {
    run_both(first, second);
    return buffers[0][0] == 'x';
}
