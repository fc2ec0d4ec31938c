/* A signal that sigwait returns says that data are there. The racy twin writes its data after it sends. */
#include "pair.h"
#include <signal.h>
static sigset_t signals;
static int data, seen;

THREAD(sends) {
    IF_CLEAN(data = 1;)
    need(!kill(getpid(), SIGUSR2));
    IF_RACY(data = 1;) /* RACE */
    return argument;
}

THREAD(receives) {
    int number;
    need(!sigwait(&signals, &number));
    seen = data; /* RACE */
    return argument;
}

int main(void) {
    sigemptyset(&signals);
    sigaddset(&signals, SIGUSR2);
    pthread_sigmask(SIG_BLOCK, &signals, NULL);
    run_both(sends, receives);
    return seen == 9;
}
