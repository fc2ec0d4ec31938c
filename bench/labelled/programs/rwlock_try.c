/* A reader's try was refused. The racy twin reads all the same. */
#include "pair.h"
static pthread_rwlock_t lock = PTHREAD_RWLOCK_INITIALIZER;
static int value, seen;

THREAD(writes) {
    pthread_rwlock_wrlock(&lock);
    value = 1; /* RACE */
    usleep(2000);
    value = 2; /* RACE */
    pthread_rwlock_unlock(&lock);
    return argument;
}

THREAD(reads) {
    usleep(500);
    int failed = pthread_rwlock_tryrdlock(&lock);
    if (IF_CLEAN(!failed) IF_RACY(1)) seen = value; /* RACE */
    if (!failed) pthread_rwlock_unlock(&lock);
    return argument;
}

int main(void) {
    run_both(writes, reads);
    return seen == 9;
}
