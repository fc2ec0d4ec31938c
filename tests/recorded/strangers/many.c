/* Many threads at once, and many one after another. */
#include <pthread.h>
#include <stdio.h>
#include <stdlib.h>
static pthread_mutex_t m = PTHREAD_MUTEX_INITIALIZER;
static pthread_barrier_t b;
static int sum, *slots;
static volatile int racy;
static void *work(void *p) {
    long k = (long)p;
    slots[k] = 1;
    pthread_mutex_lock(&m), sum++, pthread_mutex_unlock(&m);
    pthread_barrier_wait(&b);
    if (k < 2) racy = 1; /* RACE */
    return NULL;
}
int main(int count, char **words) {
    int n = count > 1 ? atoi(words[1]) : 150;
    pthread_t *t = malloc((size_t)n * sizeof *t);
    slots = calloc((size_t)n, sizeof *slots);
    pthread_barrier_init(&b, NULL, (unsigned)n);
    for (long k = 0; k < n; k++)
        if (pthread_create(&t[k], NULL, work, (void *)k)) return 1;
    for (int k = 0; k < n; k++) pthread_join(t[k], NULL);
    for (int k = 0; k < n; k++) sum += slots[k];
    printf("%d\n", sum);
    return 0;
}
