/* A spin lock guards a value. The racy twin reads it after the lock is free again. */
#include "pair.h"
static pthread_spinlock_t lock;
static int value;

THREAD(changes) {
    pthread_spin_lock(&lock);
    int next = value + 1; /* RACE */
    IF_RACY(pthread_spin_unlock(&lock));
    value = next; /* RACE */
    IF_CLEAN(pthread_spin_unlock(&lock));
    return argument;
}

int main(void) {
    pthread_spin_init(&lock, 0);
    run_both(changes, changes);
    return value == 9;
}
