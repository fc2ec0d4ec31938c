/* A message of a System V queue says that data are there. The racy twin writes its data after it sends. */
#include "pair.h"
#include <sys/msg.h>
static int queue;
static const struct message {
    long type;
    char byte;
} message = {1, 'x'};
static int data, seen;

THREAD(sends) {
    IF_CLEAN(data = 1;)
    need(!msgsnd(queue, &message, 1, 0));
    IF_RACY(data = 1;) /* RACE */
    return argument;
}

THREAD(receives) {
    struct message got;
    need(msgrcv(queue, &got, 1, 0, 0) == 1);
    seen = data; /* RACE */
    return argument;
}

int main(void) {
    queue = msgget(IPC_PRIVATE, 0600);
    need(queue >= 0);
    run_both(sends, receives);
    msgctl(queue, IPC_RMID, NULL);
    return seen == 9;
}
