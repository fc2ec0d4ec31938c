/* A handler posts a semaphore, which ends what others do. */
#include <pthread.h>
#include <semaphore.h>
#include <signal.h>
#include <stdatomic.h>
#include <stdio.h>
#include <sys/time.h>
#include <unistd.h>
static sem_t s, begun;
static atomic_int stop;
static long work_done[2];
static void on_alarm(int n) {
    (void)n;
    sem_post(&s);
}
static void *waits(void *p) {
    while (sem_wait(&s)) {}
    stop = 1;
    return p;
}
static void *works(void *p) {
    long *done = p;
    while (!stop) {
        if (++*done == 100) sem_post(&begun);
        if (*done > 1000) usleep(1000);
    }
    return p;
}
int main(void) {
    pthread_t t[3];
    sigset_t set;
    sem_init(&s, 0, 0), sem_init(&begun, 0, 0);
    signal(SIGALRM, on_alarm);
    sigemptyset(&set), sigaddset(&set, SIGALRM);
    pthread_sigmask(SIG_BLOCK, &set, NULL);
    pthread_create(&t[0], NULL, waits, NULL);
    pthread_create(&t[2], NULL, works, &work_done[0]);
    pthread_sigmask(SIG_UNBLOCK, &set, NULL);
    pthread_create(&t[1], NULL, works, &work_done[1]);
    pthread_sigmask(SIG_BLOCK, &set, NULL);
    for (int k = 0; k < 2; k++) sem_wait(&begun);
    kill(getpid(), SIGALRM);
    for (int k = 0; k < 3; k++) pthread_join(t[k], NULL);
    puts("done");
    return 0;
}
