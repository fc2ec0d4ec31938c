/* Pieces go through a pipe by writev and readv. The racy twin writes its data after it sends. */
#include "pair.h"
static int ends[2];
static int data, seen;

THREAD(sends) {
    IF_CLEAN(data = 1;)
    struct iovec piece = {"x", 1};
    need(writev(ends[1], &piece, 1) == 1);
    IF_RACY(data = 1;) /* RACE */
    return argument;
}

THREAD(receives) {
    char byte;
    struct iovec piece = {&byte, 1};
    need(readv(ends[0], &piece, 1) == 1);
    seen = data; /* RACE */
    return argument;
}

int main(void) {
    need(!pipe(ends));
    run_both(sends, receives);
    return seen == 9;
}
