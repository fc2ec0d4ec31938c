/* A timer whose function the C library calls in a new thread. */
#include <pthread.h>
#include <semaphore.h>
#include <signal.h>
#include <stdio.h>
#include <time.h>
static sem_t done;
static int before, after;
static void rings(union sigval v) {
    after = before + *(int *)v.sival_ptr;
    sem_post(&done);
}
int main(void) {
    static int data;
    timer_t t;
    struct sigevent e = {
        .sigev_notify = SIGEV_THREAD, .sigev_notify_function = rings, .sigev_value = {.sival_ptr = &data}};
    struct itimerspec soon = {{0, 0}, {0, 1000000}};
    sem_init(&done, 0, 0);
    data = 3;
    timer_create(CLOCK_MONOTONIC, &e, &t);
    before = 4;
    timer_settime(t, 0, &soon, NULL);
    while (sem_wait(&done)) {}
    printf("%d\n", after);
    return 0;
}
