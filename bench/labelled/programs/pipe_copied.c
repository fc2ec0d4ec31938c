/* A byte goes through a copy of the descriptor of a pipe. The racy twin writes its data after it sends. */
#include "pair.h"
static int ends[2];
static int copy;
static int data, seen;

THREAD(sends) {
    IF_CLEAN(data = 1;)
    need(write(copy, "x", 1) == 1);
    IF_RACY(data = 1;) /* RACE */
    return argument;
}

THREAD(receives) {
    char byte;
    need(read(ends[0], &byte, 1) == 1);
    seen = data; /* RACE */
    return argument;
}

int main(void) {
    need(!pipe(ends));
    copy = dup(ends[1]);
    run_both(sends, receives);
    return seen == 9;
}
