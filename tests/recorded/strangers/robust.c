/* A thread ends with a robust mutex, and another one gets it. */
#include <errno.h>
#include <pthread.h>
#include <stdio.h>
#include <stdlib.h>
static pthread_mutex_t m;
static int x, state;
static void *dies(void *p) {
    pthread_mutex_lock(&m);
    x = 7;
    return p;
}
static void *lives(void *p) {
    int r = pthread_mutex_lock(&m);
    if (r == EOWNERDEAD) pthread_mutex_consistent(&m), state = 1;
    else if (r) abort();
    x++;
    pthread_mutex_unlock(&m);
    return p;
}
int main(void) {
    pthread_t t[2];
    pthread_mutexattr_t a;
    pthread_mutexattr_init(&a), pthread_mutexattr_setrobust(&a, PTHREAD_MUTEX_ROBUST), pthread_mutex_init(&m, &a);
    pthread_create(&t[0], NULL, dies, NULL);
    pthread_create(&t[1], NULL, lives, NULL);
    for (int k = 0; k < 2; k++) pthread_join(t[k], NULL);
    int r = pthread_mutex_lock(&m);
    if (r == EOWNERDEAD) pthread_mutex_consistent(&m);
    printf("%d %d\n", x >= 7, state + (r == EOWNERDEAD));
    pthread_mutex_unlock(&m);
    return 0;
}
