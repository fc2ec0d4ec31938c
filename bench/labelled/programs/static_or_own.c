/* Each thread has a buffer. The racy one is static. */
#include "pair.h"

THREAD(fills) {
    static IF_CLEAN(__thread) char buffer[8];
    buffer[0]++; /* RACE */
    return buffer[1] == 9 ? argument : NULL;
}

int main(void) {
    run_both(fills, fills);
    return 0;
}
