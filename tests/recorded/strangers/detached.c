/* A thread that was made detached ends, and a joinable one may get its id. */
#define _GNU_SOURCE
#include <pthread.h>
#include <semaphore.h>
#include <stdio.h>
#include <sys/syscall.h>
#include <unistd.h>
static sem_t done;
static int x[4], y, number;
static void *alone(void *p) {
    number = (int)syscall(SYS_gettid);
    sem_post(&done);
    return p;
}
static void *work(void *p) {
    *(int *)p = 1;
    return p;
}
int main(void) {
    pthread_attr_t a;
    pthread_t id;
    sem_init(&done, 0, 0);
    pthread_attr_init(&a), pthread_attr_setdetachstate(&a, PTHREAD_CREATE_DETACHED);
    for (int k = 0; k < 4; k++) {
        pthread_create(&id, &a, alone, NULL);
        sem_wait(&done);
        /* Until the system has no such thread. */
        while (!syscall(SYS_tgkill, getpid(), number, 0)) usleep(1000);
        pthread_create(&id, NULL, work, &x[k]);
        pthread_join(id, NULL);
        y += x[k];
    }
    printf("%d\n", y);
    return 0;
}
