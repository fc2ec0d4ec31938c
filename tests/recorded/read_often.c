/* Readers of a table remember which entry they read last, without a lock of its own. Each thread also takes the write
 * lock, between its read locks. */
#include <pthread.h>

static pthread_rwlock_t lock = PTHREAD_RWLOCK_INITIALIZER;
static volatile int table[8], last;

static int get(int entry) {
    pthread_rwlock_rdlock(&lock);
    int found = table[entry];
    last = entry; /* RACE */
    pthread_rwlock_unlock(&lock);
    return found;
}

static void set(int entry, int to) {
    pthread_rwlock_wrlock(&lock);
    table[entry] = to;
    pthread_rwlock_unlock(&lock);
}

static void *work(void *first) {
    int entry = first != NULL;
    for (int round = 0; round < 4; round++) {
        set(entry, round);
        get(entry);
        get(entry + 1);
    }
    return NULL;
}

int main(void) {
    pthread_t ids[2];
    for (long k = 0; k < 2; k++) if (pthread_create(&ids[k], NULL, work, (void *)k)) return 1;
    for (int k = 0; k < 2; k++) pthread_join(ids[k], NULL);
    return 0;
}
