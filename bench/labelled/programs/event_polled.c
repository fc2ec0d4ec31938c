/* An epoll_wait says that a byte is there, and nobody reads it. The racy twin writes its data after it sends. */
#include "pair.h"
#include <sys/epoll.h>
static int ends[2];
static int poll;
static int data, seen;

THREAD(sends) {
    IF_CLEAN(data = 1;)
    need(write(ends[1], "x", 1) == 1);
    IF_RACY(data = 1;) /* RACE */
    return argument;
}

THREAD(receives) {
    struct epoll_event event;
    need(epoll_wait(poll, &event, 1, -1) == 1);
    seen = data; /* RACE */
    return argument;
}

int main(void) {
    need(!pipe(ends));
    poll = epoll_create1(0);
    struct epoll_event wanted = {.events = EPOLLIN};
    need(!epoll_ctl(poll, EPOLL_CTL_ADD, ends[0], &wanted));
    run_both(sends, receives);
    return seen == 9;
}
