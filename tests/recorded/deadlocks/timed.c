/* Two threads wait in a circle, but one of them for a second alone: then it lets its lock go. No deadlock. */
#include <pthread.h>
#include <stdio.h>
#include <time.h>
static pthread_mutex_t a = PTHREAD_MUTEX_INITIALIZER, b = PTHREAD_MUTEX_INITIALIZER;
static pthread_barrier_t both;
static int sum;
static void *patient(void *arg) {
    pthread_mutex_lock(&a);
    pthread_barrier_wait(&both);
    pthread_mutex_lock(&b);
    sum++;
    pthread_mutex_unlock(&b);
    pthread_mutex_unlock(&a);
    return arg;
}
static void *hasty(void *arg) {
    struct timespec end;
    clock_gettime(CLOCK_REALTIME, &end);
    end.tv_sec++;
    pthread_mutex_lock(&b);
    pthread_barrier_wait(&both);
    if (!pthread_mutex_timedlock(&a, &end)) pthread_mutex_unlock(&a);
    sum++;
    pthread_mutex_unlock(&b);
    return arg;
}
int main(void) {
    pthread_t t[2];
    pthread_barrier_init(&both, NULL, 2);
    pthread_create(&t[0], NULL, patient, NULL);
    pthread_create(&t[1], NULL, hasty, NULL);
    for (int i = 0; i < 2; i++) pthread_join(t[i], NULL);
    printf("%d\n", sum);
    return 0;
}
