/* Each byte of a pipe says that a step is done. The racy twin reads one byte, and then what the second step wrote. */
#include "pair.h"
static int ends[2], step[2];

THREAD(works) {
    step[0] = 1;
    need(write(ends[1], "a", 1) == 1);
    step[1] = 2; /* RACE */
    need(write(ends[1], "b", 1) == 1);
    return argument;
}

THREAD(looks) {
    char bytes[2];
    usleep(2000);
    need(read(ends[0], bytes, 1) == 1);
    IF_CLEAN(need(read(ends[0], bytes, 1) == 1));
    return step[1] == 9 ? argument : NULL; /* RACE */
}

int main(void) {
    need(!pipe(ends));
    run_both(works, looks);
    return 0;
}
