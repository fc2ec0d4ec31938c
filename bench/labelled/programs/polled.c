/* A poll says that a byte is there, and nobody reads it. The racy twin writes its data after it sends. */
#include "pair.h"
#include <poll.h>
static int ends[2];
static int data, seen;

THREAD(sends) {
    IF_CLEAN(data = 1;)
    need(write(ends[1], "x", 1) == 1);
    IF_RACY(data = 1;) /* RACE */
    return argument;
}

THREAD(receives) {
    struct pollfd asked = {ends[0], POLLIN, 0};
    need(poll(&asked, 1, -1) == 1);
    seen = data; /* RACE */
    return argument;
}

int main(void) {
    need(!pipe(ends));
    run_both(sends, receives);
    return seen == 9;
}
