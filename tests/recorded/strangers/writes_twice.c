/* A thread that has a reader-writer lock to write is refused if it takes it again. */
#include <errno.h>
#include <pthread.h>
#include <stdio.h>
static pthread_rwlock_t l = PTHREAD_RWLOCK_INITIALIZER;
static int x, refused;
static void *work(void *p) {
    pthread_rwlock_wrlock(&l);
    refused += pthread_rwlock_rdlock(&l) == EDEADLK, refused += pthread_rwlock_wrlock(&l) == EDEADLK;
    x++;
    pthread_rwlock_unlock(&l);
    pthread_rwlock_rdlock(&l), pthread_rwlock_rdlock(&l);
    (void)*(volatile int *)&x;
    pthread_rwlock_unlock(&l), pthread_rwlock_unlock(&l);
    return p;
}
int main(void) {
    pthread_t t[2];
    for (int k = 0; k < 2; k++) pthread_create(&t[k], NULL, work, NULL);
    for (int k = 0; k < 2; k++) pthread_join(t[k], NULL);
    printf("%d %d\n", x, refused);
    return 0;
}
