/* A byte goes through a pipe by pwritev2 and preadv2. The racy twin writes its data after it sends. */
#include "pair.h"
static int ends[2];
static int data, seen;

THREAD(sends) {
    IF_CLEAN(data = 1;)
    struct iovec piece = {"x", 1};
    need(pwritev2(ends[1], &piece, 1, -1, 0) == 1);
    IF_RACY(data = 1;) /* RACE */
    return argument;
}

THREAD(receives) {
    char byte;
    struct iovec piece = {&byte, 1};
    need(preadv2(ends[0], &piece, 1, -1, 0) == 1);
    seen = data; /* RACE */
    return argument;
}

int main(void) {
    need(!pipe(ends));
    run_both(sends, receives);
    return seen == 9;
}
