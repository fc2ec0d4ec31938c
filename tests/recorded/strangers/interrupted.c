/* Calls that a handler interrupts end, where it was said so. */
#define _GNU_SOURCE
#include <errno.h>
#include <pthread.h>
#include <semaphore.h>
#include <signal.h>
#include <stdio.h>
#include <unistd.h>
static sem_t s, ready;
static int ends[2], interrupted[2];
static void on_user(int n) { (void)n; }
static void *waits(void *p) {
    sem_post(&ready);
    interrupted[0] = sem_wait(&s) == -1 && errno == EINTR;
    return p;
}
static void *reads(void *p) {
    char c;
    sem_post(&ready);
    interrupted[1] = read(ends[0], &c, 1) == -1 && errno == EINTR;
    return p;
}
int main(void) {
    pthread_t t[2];
    struct sigaction a = {.sa_handler = on_user};
    sigaction(SIGUSR1, &a, NULL);
    sem_init(&s, 0, 0), sem_init(&ready, 0, 0);
    if (pipe(ends)) return 1;
    pthread_create(&t[0], NULL, waits, NULL), pthread_create(&t[1], NULL, reads, NULL);
    for (int k = 0; k < 2; k++)
        while (sem_wait(&ready)) {}
    /* A signal that comes before the call interrupts nothing, so there are more. */
    for (int k = 0; k < 2; k++)
        do pthread_kill(t[k], SIGUSR1), usleep(20000);
        while (pthread_tryjoin_np(t[k], NULL));
    printf("%d %d\n", interrupted[0], interrupted[1]);
    return 0;
}
