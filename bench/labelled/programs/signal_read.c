/* A signal that comes through a signalfd says that data are there. The racy twin writes its data after it sends. */
#include "pair.h"
#include <signal.h>
#include <sys/signalfd.h>
static sigset_t signals;
static int file;
static int data, seen;

THREAD(sends) {
    IF_CLEAN(data = 1;)
    need(!kill(getpid(), SIGUSR2));
    IF_RACY(data = 1;) /* RACE */
    return argument;
}

THREAD(receives) {
    struct signalfd_siginfo about;
    need(read(file, &about, sizeof about) == sizeof about);
    seen = data; /* RACE */
    return argument;
}

int main(void) {
    sigemptyset(&signals);
    sigaddset(&signals, SIGUSR2);
    pthread_sigmask(SIG_BLOCK, &signals, NULL);
    file = signalfd(-1, &signals, 0);
    run_both(sends, receives);
    return seen == 9;
}
