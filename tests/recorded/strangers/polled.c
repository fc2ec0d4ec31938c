/* What a thread gives to a poll is there for the thread that gets it back; one more is not. */
#include <pthread.h>
#include <stdio.h>
#include <stdlib.h>
#include <sys/epoll.h>
#include <sys/eventfd.h>
#include <unistd.h>
struct job {
    int number, answer;
};
static int poll;
static volatile int racy;
static void *gives(void *p) {
    for (int k = 0; k < 3; k++) {
        struct job *one = malloc(sizeof *one);
        int event = eventfd(1, 0);
        one->number = k, one->answer = 0;
        struct epoll_event e = {.events = EPOLLIN | EPOLLONESHOT, .data.ptr = one};
        if (epoll_ctl(poll, EPOLL_CTL_ADD, event, &e)) abort();
    }
    racy = 1; /* RACE */
    return p;
}
static void *takes(void *p) {
    int sum = 0;
    for (int k = 0; k < 3; k++) {
        struct epoll_event e;
        if (epoll_wait(poll, &e, 1, -1) != 1) abort();
        struct job *one = e.data.ptr;
        one->answer = one->number + 1;
        sum += one->answer;
    }
    racy = 2; /* RACE */
    *(int *)p = sum;
    return NULL;
}
int main(void) {
    pthread_t t[2];
    int sum;
    poll = epoll_create1(0);
    pthread_create(&t[0], NULL, gives, NULL), pthread_create(&t[1], NULL, takes, &sum);
    for (int k = 0; k < 2; k++) pthread_join(t[k], NULL);
    printf("%d\n", sum);
    return 0;
}
