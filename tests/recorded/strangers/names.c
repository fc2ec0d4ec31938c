/* Functions of the program that have names of the C library. */
#include <pthread.h>
#include <stdio.h>
volatile int racy;
int calls;
static pthread_mutex_t m = PTHREAD_MUTEX_INITIALIZER;
void send(int n) { calls += n; }
int recv(void) { return calls; }
void pause(int n) { calls += n; }
int listen(int a, int b, int c) { return a + b + c; }
int own_new(int a) { return a; }
int wait(int a) { return a; }
long random(void) { return 4; }
void shutdown(void) {}
void select_(void) {}
int connect(int x) { return x + calls; }
int accept(int x) { return x; }
int dup(int x) { return x; }
static void *work(void *p) {
    pthread_mutex_lock(&m);
    send(1), pause(2),
        calls += recv() + listen(1, 2, 3) + wait(4) + (int)random() + connect(1) + accept(2) + dup(3) + own_new(1);
    shutdown();
    pthread_mutex_unlock(&m);
    racy++; /* RACE */
    return p;
}
int main(void) {
    pthread_t t[2];
    for (int k = 0; k < 2; k++) pthread_create(&t[k], NULL, work, NULL);
    for (int k = 0; k < 2; k++) pthread_join(t[k], NULL);
    printf("%d\n", calls);
    return 0;
}
