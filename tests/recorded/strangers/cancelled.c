/* Threads that are cancelled while they wait: for a condition, a pipe, a socket, a semaphore, a signal, and by a test. */
#include <pthread.h>
#include <semaphore.h>
#include <stdio.h>
#include <sys/socket.h>
#include <unistd.h>
#define WORKS 6
static pthread_mutex_t m = PTHREAD_MUTEX_INITIALIZER;
static pthread_cond_t c = PTHREAD_COND_INITIALIZER;
static sem_t never, begun;
static int ends[2], pair[2], cleaned, under_lock;
static void unlock(void *at) { under_lock++, pthread_mutex_unlock(at); }
static void count(void *at) {
    pthread_mutex_lock(&m);
    *(int *)at += 1;
    pthread_mutex_unlock(&m);
}
static void *by_condition(void *p) {
    pthread_mutex_lock(&m);
    pthread_cleanup_push(unlock, &m);
    sem_post(&begun);
    for (;;) pthread_cond_wait(&c, &m);
    pthread_cleanup_pop(1);
    return p;
}
#define WAITS(name, call) \
    static void *name(void *p) { \
        char byte; \
        (void)byte; \
        pthread_cleanup_push(count, &cleaned); \
        sem_post(&begun); \
        for (;;) call; \
        pthread_cleanup_pop(1); \
        return p; \
    }
WAITS(by_pipe, read(ends[0], &byte, 1))
WAITS(by_socket, recv(pair[0], &byte, 1, 0))
WAITS(by_semaphore, sem_wait(&never))
WAITS(by_signal, pause())
WAITS(by_test, (pthread_testcancel(), usleep(1000)))
int main(void) {
    void *(*works[WORKS])(void *) = {by_condition, by_pipe, by_socket, by_semaphore, by_signal, by_test}, *value;
    pthread_t t[WORKS];
    int cancelled = 0;
    if (pipe(ends) || socketpair(AF_UNIX, SOCK_STREAM, 0, pair)) return 1;
    sem_init(&never, 0, 0), sem_init(&begun, 0, 0);
    for (int k = 0; k < WORKS; k++) pthread_create(&t[k], NULL, works[k], NULL);
    for (int k = 0; k < WORKS; k++) sem_wait(&begun);
    for (int k = 0; k < WORKS; k++) pthread_cancel(t[k]);
    for (int k = 0; k < WORKS; k++) pthread_join(t[k], &value), cancelled += value == PTHREAD_CANCELED;
    printf("%d %d %d\n", cancelled, cleaned, under_lock);
    return 0;
}
