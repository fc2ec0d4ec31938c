/* A byte goes from one pipe into another by splice. The racy twin writes its data after it sends. */
#include "pair.h"
static int ends[2];
static int more[2];
static int data, seen;

THREAD(sends) {
    IF_CLEAN(data = 1;)
    need(write(ends[1], "x", 1) == 1);
    IF_RACY(data = 1;) /* RACE */
    return argument;
}

THREAD(receives) {
    char byte;
    need(splice(ends[0], NULL, more[1], NULL, 1, 0) == 1);
    need(read(more[0], &byte, 1) == 1);
    seen = data; /* RACE */
    return argument;
}

int main(void) {
    need(!pipe(ends));
    need(!pipe(more));
    run_both(sends, receives);
    return seen == 9;
}
