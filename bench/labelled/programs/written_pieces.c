/* A thread writes two pieces of memory to a file, and the racy other changes one of them. */
#include "pair.h"
static char one[8], two[8];

THREAD(writes) {
    struct iovec pieces[2] = {{one, 8}, {two, 8}};
    int file = open("/dev/null", O_WRONLY);
    need(writev(file, pieces, IF_RACY(2) IF_CLEAN(1)) > 0); /* RACE */
    close(file);
    return argument;
}

THREAD(changes) {
    two[3] = 1; /* RACE */
    return argument;
}

int main(void) {
    run_both(writes, changes);
    return one[0];
}
