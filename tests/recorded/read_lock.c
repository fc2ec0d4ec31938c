/* A write while a read lock is held, which other readers do as well. What is written under the write lock is no race. */
#include <pthread.h>

static pthread_rwlock_t lock = PTHREAD_RWLOCK_INITIALIZER;
static int counted, kept;

static void *reader(void *none) {
    pthread_rwlock_rdlock(&lock);
    if (kept) counted++; /* RACE */
    pthread_rwlock_unlock(&lock);
    return none;
}

static void *writer(void *none) {
    pthread_rwlock_wrlock(&lock);
    kept++;
    pthread_rwlock_unlock(&lock);
    return none;
}

int main(void) {
    pthread_t ids[5];
    kept = 1;
    for (int k = 0; k < 4; k++) if (pthread_create(&ids[k], NULL, reader, NULL)) return 1;
    for (int k = 0; k < 4; k++) pthread_join(ids[k], NULL);
    for (int k = 0; k < 2; k++) if (pthread_create(&ids[k], NULL, k ? reader : writer, NULL)) return 1;
    for (int k = 0; k < 2; k++) pthread_join(ids[k], NULL);
    return 0;
}
