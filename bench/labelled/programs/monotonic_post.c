/* A post says that data are there to a wait with a time. The racy twin writes its data after it sends. */
#include "pair.h"
#include <time.h>
static sem_t there;
static int data, seen;

THREAD(sends) {
    IF_CLEAN(data = 1;)
    sem_post(&there);
    IF_RACY(data = 1;) /* RACE */
    return argument;
}

THREAD(receives) {
    struct timespec until;
    clock_gettime(CLOCK_REALTIME, &until);
    until.tv_sec += 100;
    need(!sem_timedwait(&there, &until));
    seen = data; /* RACE */
    return argument;
}

int main(void) {
    sem_init(&there, 0, 0);
    run_both(sends, receives);
    return seen == 9;
}
