/* A message of a POSIX queue says that data are there. The racy twin writes its data after it sends. */
#include "pair.h"
#include <mqueue.h>
static mqd_t queue;
static int data, seen;

THREAD(sends) {
    IF_CLEAN(data = 1;)
    need(!mq_send(queue, "x", 1, 0));
    IF_RACY(data = 1;) /* RACE */
    return argument;
}

THREAD(receives) {
    char message[8];
    need(mq_receive(queue, message, 8, NULL) == 1);
    seen = data; /* RACE */
    return argument;
}

int main(void) {
    char name[32];
    snprintf(name, sizeof name, "/labelled.%d", (int)getpid());
    struct mq_attr form = {.mq_maxmsg = 2, .mq_msgsize = 8};
    queue = mq_open(name, O_CREAT | O_RDWR, 0600, &form);
    need(queue >= 0);
    mq_unlink(name);
    run_both(sends, receives);
    return seen == 9;
}
