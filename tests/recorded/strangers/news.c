/* Descriptors that carry news: signalfd, eventfd, timerfd, a pipe that is polled, and select; data go with them. */
#define _GNU_SOURCE
#include <fcntl.h>
#include <poll.h>
#include <pthread.h>
#include <signal.h>
#include <stdint.h>
#include <stdio.h>
#include <stdlib.h>
#include <sys/eventfd.h>
#include <sys/select.h>
#include <sys/signalfd.h>
#include <sys/timerfd.h>
#include <unistd.h>
static int ends[2], event, timer, by_pipe, by_event, by_select, more[2];
static volatile int racy;
static uint64_t read_number(int from) {
    uint64_t n = 0;
    if (read(from, &n, sizeof n) != sizeof n) abort();
    return n;
}
static void *gives(void *p) {
    struct itimerspec soon = {{0, 0}, {0, 1000000}};
    uint64_t one = 1;
    by_pipe = 1;
    if (write(ends[1], "x", 1) != 1) abort();
    by_event = 2;
    if (write(event, &one, sizeof one) != sizeof one) abort();
    by_select = 3;
    if (write(more[1], "yz", 2) != 2) abort();
    if (timerfd_settime(timer, 0, &soon, NULL)) abort();
    racy = 1; /* RACE */
    return p;
}
static void *takes(void *p) {
    char c;
    fd_set set;
    struct pollfd of_pipe = {.fd = ends[0], .events = POLLIN};
    while (poll(&of_pipe, 1, 1000) != 1) {}
    if (read(ends[0], &c, 1) != 1) abort();
    int sum = by_pipe;
    if (read_number(event) != 1) abort();
    sum += by_event;
    FD_ZERO(&set);
    FD_SET(more[0], &set);
    if (select(more[0] + 1, &set, NULL, NULL, NULL) != 1 || read(more[0], &c, 1) != 1) abort();
    sum += by_select + (int)read_number(timer);
    racy = 2; /* RACE */
    *(int *)p = sum;
    return NULL;
}
int main(void) {
    pthread_t t[2];
    int sum = 0;
    sigset_t set;
    struct signalfd_siginfo about;
    sigemptyset(&set), sigaddset(&set, SIGUSR1), pthread_sigmask(SIG_BLOCK, &set, NULL);
    int of_signals = signalfd(-1, &set, SFD_CLOEXEC);
    if (pipe(ends) || pipe2(more, O_CLOEXEC)) return 1;
    event = eventfd(0, EFD_CLOEXEC), timer = timerfd_create(CLOCK_MONOTONIC, TFD_CLOEXEC);
    pthread_create(&t[0], NULL, gives, NULL), pthread_create(&t[1], NULL, takes, &sum);
    kill(getpid(), SIGUSR1);
    if (read(of_signals, &about, sizeof about) != sizeof about) return 1;
    for (int k = 0; k < 2; k++) pthread_join(t[k], NULL);
    printf("%d %d\n", sum, (int)about.ssi_signo == SIGUSR1);
    return 0;
}
