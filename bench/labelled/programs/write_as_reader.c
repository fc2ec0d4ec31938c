/* The racy twin writes while it holds the lock as a reader. */
#include "pair.h"
static pthread_rwlock_t lock = PTHREAD_RWLOCK_INITIALIZER;
static int value;

THREAD(writes) {
    IF_RACY(pthread_rwlock_rdlock(&lock)) IF_CLEAN(pthread_rwlock_wrlock(&lock));
    value = 1; /* RACE */
    pthread_rwlock_unlock(&lock);
    return argument;
}

THREAD(reads) {
    pthread_rwlock_rdlock(&lock);
    int seen = value; /* RACE */
    pthread_rwlock_unlock(&lock);
    return seen == 9 ? argument : NULL;
}

int main(void) {
    run_both(writes, reads);
    return 0;
}
