/* A thread waits for a signal that came before: each thread waits for ever, and no lock is in a circle. */
#include <pthread.h>
static pthread_mutex_t m = PTHREAD_MUTEX_INITIALIZER;
static pthread_cond_t is_ready = PTHREAD_COND_INITIALIZER;
static int count;
static void *wait_once(void *arg) {
    pthread_mutex_lock(&m);
    count++;
    pthread_cond_wait(&is_ready, &m);
    pthread_mutex_unlock(&m);
    return arg;
}
int main(void) {
    pthread_t t;
    pthread_create(&t, NULL, wait_once, NULL);
    pthread_join(t, NULL);
    return count;
}
