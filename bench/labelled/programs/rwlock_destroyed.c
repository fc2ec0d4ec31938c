/* The racy twin destroys a reader-writer lock that the other thread may still take. */
#include "pair.h"
static pthread_rwlock_t lock = PTHREAD_RWLOCK_INITIALIZER;

THREAD(reads) {
    pthread_rwlock_rdlock(&lock); /* RACE */
    pthread_rwlock_unlock(&lock); /* RACE */
    return argument;
}

THREAD(destroys) {
    IF_RACY(usleep(1000);)
    IF_RACY(pthread_rwlock_destroy(&lock);) /* RACE */
    return argument;
}

int main(void) {
    run_both(reads, destroys);
    IF_CLEAN(pthread_rwlock_destroy(&lock));
    return 0;
}
