/* Messages go by sendmmsg and recvmmsg. The racy twin writes its data after it sends. */
#include "pair.h"
static int ends[2];
static int data, seen;

THREAD(sends) {
    IF_CLEAN(data = 1;)
    struct iovec piece = {"x", 1};
    struct mmsghdr message = {.msg_hdr = {.msg_iov = &piece, .msg_iovlen = 1}};
    need(sendmmsg(ends[1], &message, 1, 0) == 1);
    IF_RACY(data = 1;) /* RACE */
    return argument;
}

THREAD(receives) {
    char byte;
    struct iovec piece = {&byte, 1};
    struct mmsghdr message = {.msg_hdr = {.msg_iov = &piece, .msg_iovlen = 1}};
    need(recvmmsg(ends[0], &message, 1, 0, NULL) == 1);
    seen = data; /* RACE */
    return argument;
}

int main(void) {
    need(!socketpair(AF_UNIX, SOCK_STREAM, 0, ends));
    run_both(sends, receives);
    return seen == 9;
}
