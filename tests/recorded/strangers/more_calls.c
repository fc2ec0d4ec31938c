/* Calls that wait or pass something on and that programs use more seldom: messages with times, descriptors that are
 * given again, polls with a mask, operations with a time, sleeps. */
#define _GNU_SOURCE
#include <errno.h>
#include <fcntl.h>
#include <mqueue.h>
#include <poll.h>
#include <pthread.h>
#include <semaphore.h>
#include <signal.h>
#include <stdio.h>
#include <stdlib.h>
#include <sys/epoll.h>
#include <sys/select.h>
#include <sys/sem.h>
#include <sys/time.h>
#include <sys/wait.h>
#include <threads.h>
#include <time.h>
#include <unistd.h>
static mqd_t queue;
static int semaphores, ends[2], origin[2], twin, polled[2], watch, more[2], full[2], watch_full;
static int by_given, by_queue, by_semaphores, by_twin, by_watch, by_poll, by_select, by_detached, slept, unguarded;
static sem_t ended;

static struct timespec far(void) {
    struct timespec t;
    clock_gettime(CLOCK_REALTIME, &t);
    t.tv_sec += 500;
    return t;
}

static int tells_and_ends(void *p) {
    by_detached = 1;
    sem_post(&ended);
    return p != NULL;
}

static void *tells(void *p) {
    struct timespec t = far(), moment = {0, 1000000};
    struct sembuf post = {0, 1, 0};
    struct epoll_event e = {.events = EPOLLIN};
    by_given = 1;
    if (epoll_ctl(watch_full, EPOLL_CTL_ADD, full[0], &e)) abort();
    nanosleep(&moment, NULL), clock_nanosleep(CLOCK_MONOTONIC, 0, &moment, NULL), thrd_sleep(&moment, NULL), slept++;
    by_queue = 1;
    if (mq_timedsend(queue, "a", 1, 0, &t)) abort();
    by_semaphores = 1;
    if (semtimedop(semaphores, &post, 1, NULL)) abort();
    by_twin = 1;
    if (write(twin, "b", 1) != 1) abort();
    by_watch = 1;
    if (write(polled[1], "c", 1) != 1) abort();
    by_poll = 1;
    if (write(more[1], "d", 1) != 1) abort();
    by_select = 1;
    if (write(ends[1], "e", 1) != 1) abort();
    unguarded++; /* RACE */
    return p;
}

static int hears_polls(void) {
    char c;
    struct epoll_event e;
    struct pollfd f = {more[0], POLLIN, 0};
    struct timespec t = {500, 0};
    fd_set set;
    while (epoll_pwait(watch, &e, 1, -1, NULL) != 1) {}
    if (read(e.data.fd, &c, 1) != 1) abort();
    int sum = by_watch;
    while (ppoll(&f, 1, &t, NULL) != 1) {}
    if (read(more[0], &c, 1) != 1) abort();
    sum += by_poll;
    FD_ZERO(&set);
    FD_SET(ends[0], &set);
    while (pselect(ends[0] + 1, &set, NULL, NULL, &t, NULL) != 1) {}
    if (read(ends[0], &c, 1) != 1) abort();
    return sum + by_select;
}

static void *hears(void *p) {
    char text[64];
    struct timespec t = far();
    struct sembuf wait_for_it = {0, -1, 0};
    struct epoll_event e;
    while (epoll_pwait(watch_full, &e, 1, -1, NULL) != 1) {}
    int sum = by_given;
    if (mq_timedreceive(queue, text, sizeof text, NULL, &t) != 1) abort();
    sum += by_queue;
    if (semtimedop(semaphores, &wait_for_it, 1, &(struct timespec){500, 0})) abort();
    sum += by_semaphores;
    if (read(origin[0], text, 1) != 1) abort();
    sum += by_twin;
    sum += hears_polls();
    printf("%d\n", sum);
    unguarded++; /* RACE */
    return p;
}

int main(void) {
    pthread_t a, b;
    thrd_t c;
    char name[40];
    struct mq_attr few = {0, 2, 8, 0, {0}};
    struct timeval now;
    snprintf(name, sizeof name, "/racebench-calls-%d", (int)getpid());
    queue = mq_open(name, O_CREAT | O_RDWR, 0600, &few), mq_unlink(name);
    semaphores = semget(IPC_PRIVATE, 1, 0600), semctl(semaphores, 0, SETVAL, 0);
    if (pipe(ends) || pipe(origin) || pipe(polled) || pipe(more) || pipe(full) || write(full[1], "f", 1) != 1) abort();
    twin = dup3(origin[1], 100, O_CLOEXEC);
    watch = epoll_create(1), watch_full = epoll_create(2);
    struct epoll_event e = {.events = EPOLLIN, .data = {.fd = polled[0]}};
    if (twin != 100 || epoll_ctl(watch, EPOLL_CTL_ADD, polled[0], &e)) abort();
    sem_init(&ended, 0, 0);
    pthread_create(&a, NULL, hears, NULL), pthread_create(&b, NULL, tells, NULL);
    thrd_create(&c, tells_and_ends, NULL), thrd_detach(c);
    while (sem_wait(&ended)) {}
    pthread_join(a, NULL), pthread_join(b, NULL);
    printf("%d %d %d\n", by_detached, slept, gettimeofday(&now, NULL));
    semctl(semaphores, 0, IPC_RMID);
    return now.tv_sec == 0;
}
