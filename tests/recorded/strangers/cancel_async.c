/* A thread that computes is cancelled at once, wherever it is. */
#include <pthread.h>
#include <sched.h>
#include <semaphore.h>
#include <stdio.h>
#include <unistd.h>
static volatile long counts[4];
static sem_t begun;
static void *computes(void *p) {
    for (int k = 0; k < 1000; k++) ++*(volatile long *)p;
    sem_post(&begun);
    pthread_setcanceltype(PTHREAD_CANCEL_ASYNCHRONOUS, NULL);
    for (;;) ++*(volatile long *)p;
    return NULL;
}
static void *waits(void *p) {
    sem_post(&begun);
    for (;;) pause();
    return p;
}
int main(void) {
    pthread_t t[5];
    void *v;
    int cancelled = 0;
    sem_init(&begun, 0, 0);
    for (int k = 0; k < 4; k++) pthread_create(&t[k], NULL, computes, (void *)&counts[k]);
    pthread_create(&t[4], NULL, waits, NULL);
    for (int k = 0; k < 5; k++) sem_wait(&begun);
    for (int k = 0; k < 20; k++) sched_yield();
    for (int k = 0; k < 5; k++) pthread_cancel(t[k]);
    for (int k = 0; k < 5; k++) pthread_join(t[k], &v), cancelled += v == PTHREAD_CANCELED;
    printf("%d\n", cancelled);
    return 0;
}
