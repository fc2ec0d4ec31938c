/* A datagram says that the data are there. The racy twin sends it before it writes them. */
#include "pair.h"
static int ends[2];
static int data, seen;

THREAD(sends) {
    IF_CLEAN(data = 1;)
    need(send(ends[0], "there", 5, 0) == 5);
    IF_RACY(data = 1;) /* RACE */
    return argument;
}

THREAD(receives) {
    char message[8];
    need(recv(ends[1], message, sizeof message, 0) == 5);
    seen = data; /* RACE */
    return argument;
}

int main(void) {
    need(!socketpair(AF_UNIX, SOCK_DGRAM, 0, ends));
    run_both(sends, receives);
    return seen == 9;
}
