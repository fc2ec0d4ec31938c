/* An eventfd says that data are there. The racy twin writes its data after it sends. */
#include "pair.h"
#include <sys/eventfd.h>
static int event;
static int data, seen;

THREAD(sends) {
    IF_CLEAN(data = 1;)
    need(!eventfd_write(event, 1));
    IF_RACY(data = 1;) /* RACE */
    return argument;
}

THREAD(receives) {
    eventfd_t count;
    need(!eventfd_read(event, &count));
    seen = data; /* RACE */
    return argument;
}

int main(void) {
    event = eventfd(0, 0);
    need(event >= 0);
    run_both(sends, receives);
    return seen == 9;
}
