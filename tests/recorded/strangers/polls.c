/* Calls that ask for some of many descriptors write what is there, and read what they are asked for. */
#define _GNU_SOURCE
#include <poll.h>
#include <pthread.h>
#include <stdio.h>
#include <sys/epoll.h>
#include <sys/select.h>
#include <unistd.h>
static pthread_mutex_t m = PTHREAD_MUTEX_INITIALIZER;
static struct pollfd polled[2], timed[2], asked[2], guarded[2];
static fd_set readable, writable;
static struct timeval left;
static struct epoll_event events[4];
static int ends[2], poll_of;
static __thread volatile long n;

static void guards(void) {
    pthread_mutex_lock(&m);
    n += poll(guarded, 2, 0) + guarded[0].revents;
    guarded[1].events = POLLOUT;
    pthread_mutex_unlock(&m);
}

static void *asks(void *p) {
    n += poll(polled, 2, 0);                                                      /* RACE a */
    n += ppoll(timed, 2, &(struct timespec){0, 1}, NULL);                         /* RACE b */
    n += select(ends[1] + 1, &readable, NULL, NULL, &left);                       /* RACE c */
    n += pselect(ends[1] + 1, NULL, &writable, NULL, &(struct timespec){}, NULL); /* RACE d */
    n += epoll_wait(poll_of, events, 4, 0);                                       /* RACE e */
    n += poll(asked, 2, 0);                                                       /* RACE f */
    guards();
    return p;
}

static void *looks(void *p) {
    n += polled[1].revents;            /* RACE a */
    n += polled[1].fd + polled[1].events;
    n += timed[1].revents;             /* RACE b */
    n += FD_ISSET(ends[0], &readable); /* RACE c */
    n += left.tv_usec;                 /* RACE c */
    n += FD_ISSET(ends[1], &writable); /* RACE d */
    n += events[0].data.fd;            /* RACE e */
    asked[1].events = POLLOUT;         /* RACE f */
    guards();
    return p;
}

int main(void) {
    pthread_t t[2];
    if (pipe(ends) || write(ends[1], "text", 4) != 4) return 1;
    for (int k = 0; k < 2; k++) {
        polled[k] = timed[k] = asked[k] = guarded[k] = (struct pollfd){.fd = ends[k], .events = POLLIN | POLLOUT};
    }
    FD_SET(ends[0], &readable), FD_SET(ends[1], &writable);
    poll_of = epoll_create1(0);
    epoll_ctl(poll_of, EPOLL_CTL_ADD, ends[0], &(struct epoll_event){.events = EPOLLIN});
    pthread_create(&t[0], NULL, asks, NULL), pthread_create(&t[1], NULL, looks, NULL);
    for (int k = 0; k < 2; k++) pthread_join(t[k], NULL);
    printf("%d %d %d\n", polled[0].revents, timed[1].revents, FD_ISSET(ends[1], &writable) != 0);
    return 0;
}
