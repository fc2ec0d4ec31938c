/* Threads with the smallest stack that there may be. */
#include <limits.h>
#include <pthread.h>
#include <stdio.h>
#include <stdlib.h>
#include <string.h>
static pthread_mutex_t m = PTHREAD_MUTEX_INITIALIZER;
static pthread_cond_t c = PTHREAD_COND_INITIALIZER;
static int sum, come;
static volatile int racy;
static void *work(void *p) {
    char *b = malloc(100);
    memset(b, 1, 100);
    pthread_mutex_lock(&m);
    sum += b[5], come++;
    pthread_cond_broadcast(&c);
    while (come < 8) pthread_cond_wait(&c, &m);
    pthread_mutex_unlock(&m);
    free(b);
    racy++; /* RACE */
    return p;
}
int main(void) {
    pthread_t t[8];
    pthread_attr_t a;
    pthread_attr_init(&a);
    if (pthread_attr_setstacksize(&a, PTHREAD_STACK_MIN)) return 2;
    for (int k = 0; k < 8; k++)
        if (pthread_create(&t[k], &a, work, NULL)) return 1;
    for (int k = 0; k < 8; k++) pthread_join(t[k], NULL);
    printf("%d\n", sum);
    return 0;
}
