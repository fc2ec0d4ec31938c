/* Two readers count their reads. The racy count is no atomic. */
#include "pair.h"
static pthread_rwlock_t lock = PTHREAD_RWLOCK_INITIALIZER;
static IF_RACY(int) IF_CLEAN(_Atomic int) count;

THREAD(reads) {
    pthread_rwlock_rdlock(&lock);
    count++; /* RACE */
    pthread_rwlock_unlock(&lock);
    return argument;
}

int main(void) {
    run_both(reads, reads);
    return count == 9;
}
