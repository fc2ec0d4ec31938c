/* As abba.c, but the environment may name another lock for the second thread: a free one, or one that main holds. */
#include <pthread.h>
#include <stdio.h>
#include <stdlib.h>
static pthread_mutex_t a = PTHREAD_MUTEX_INITIALIZER, b = PTHREAD_MUTEX_INITIALIZER;
static pthread_mutex_t idle = PTHREAD_MUTEX_INITIALIZER, mains = PTHREAD_MUTEX_INITIALIZER;
static void *first(void *arg) {
    pthread_mutex_lock(&a);
    pthread_mutex_lock(&b);
    pthread_mutex_unlock(&b);
    pthread_mutex_unlock(&a);
    return arg;
}
static void *second(void *wanted) {
    pthread_mutex_lock(&b);
    pthread_mutex_lock(wanted);
    pthread_mutex_unlock(wanted);
    pthread_mutex_unlock(&b);
    return NULL;
}
int main(void) {
    pthread_mutex_t *wanted = getenv("IDLE_LOCK") ? &idle : getenv("MAINS_LOCK") ? &mains : &a;
    pthread_t t[2];
    pthread_mutex_lock(&mains);
    pthread_create(&t[0], NULL, first, NULL);
    pthread_create(&t[1], NULL, second, wanted);
    for (int i = 0; i < 2; i++) pthread_join(t[i], NULL);
    pthread_mutex_unlock(&mains);
    puts("done");
    return 0;
}
