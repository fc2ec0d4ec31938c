/* A flag without the lock, beside a condition variable: workers look at `stopping` outside of the lock, and the main
 * thread tears the queue down. */
#include <assert.h>
#include <pthread.h>
#include <stdio.h>
#include <stdlib.h>
static pthread_mutex_t m = PTHREAD_MUTEX_INITIALIZER; static pthread_cond_t c = PTHREAD_COND_INITIALIZER;
static int stopping, filled, taken; static int *queue;
static void *worker(void *none) {
    while (!stopping) {
        pthread_mutex_lock(&m);
        while (!filled && !stopping) pthread_cond_wait(&c, &m);
        if (filled) { filled--; pthread_mutex_unlock(&m); taken += queue[0]; }
        else pthread_mutex_unlock(&m);
    }
    return none;
}
int main(void) {
    pthread_t t[2];
    queue = malloc(sizeof *queue); queue[0] = 1;
    for (int k = 0; k < 2; k++) pthread_create(&t[k], NULL, worker, NULL);
    for (int k = 0; k < 4; k++) {
        pthread_mutex_lock(&m); filled++; pthread_cond_signal(&c); pthread_mutex_unlock(&m);
    }
    for (int left = 1; left;) { pthread_mutex_lock(&m); left = filled; pthread_mutex_unlock(&m); }
    free(queue); queue = NULL;
    stopping = 1;
    pthread_mutex_lock(&m); pthread_cond_broadcast(&c); pthread_mutex_unlock(&m);
    for (int k = 0; k < 2; k++) pthread_join(t[k], NULL);
    printf("taken %d\n", taken);
    assert(taken == 4);
}
