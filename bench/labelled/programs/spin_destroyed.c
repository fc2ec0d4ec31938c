/* The racy twin destroys a spin lock that the other thread may still take. */
#include "pair.h"
static pthread_spinlock_t lock;

THREAD(uses) {
    pthread_spin_lock(&lock); /* RACE */
    pthread_spin_unlock(&lock); /* RACE */
    return argument;
}

THREAD(destroys) {
    IF_RACY(usleep(1000);)
    IF_RACY(pthread_spin_destroy(&lock);) /* RACE */
    return argument;
}

int main(void) {
    pthread_spin_init(&lock, 0);
    run_both(uses, destroys);
    IF_CLEAN(pthread_spin_destroy(&lock));
    return 0;
}
