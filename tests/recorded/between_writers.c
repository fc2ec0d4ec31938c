/* A write while a read lock is held, where each thread also takes the write lock before and after; and threads that take a semaphore
 * as a lock: what comes before the one and after the other is a race, whichever came first. */
#include <pthread.h>
#include <semaphore.h>

static pthread_rwlock_t lock = PTHREAD_RWLOCK_INITIALIZER;
static sem_t one;
static volatile int written, counted, kept;

static void *work(void *none) {
    for (int k = 0; k < 3; k++) {
        pthread_rwlock_wrlock(&lock);
        written = k;
        pthread_rwlock_unlock(&lock);
        sem_wait(&one);
        kept = k;
        sem_post(&one);
        pthread_rwlock_rdlock(&lock);
        counted = k; /* RACE */
        pthread_rwlock_unlock(&lock);
        sem_wait(&one);
        kept = k;
        sem_post(&one);
    }
    return none;
}

int main(void) {
    pthread_t ids[2];
    sem_init(&one, 0, 1);
    for (int k = 0; k < 2; k++) if (pthread_create(&ids[k], NULL, work, NULL)) return 1;
    for (int k = 0; k < 2; k++) pthread_join(ids[k], NULL);
    return 0;
}
