/* One thread raises a counter by a line of assembly that has the counter's address; the clean twin holds a mutex. */
#include "pair.h"
static pthread_mutex_t mutex = PTHREAD_MUTEX_INITIALIZER;
static int counter;

THREAD(raises) {
    IF_CLEAN(LOCK(mutex));
#if defined __x86_64__
    __asm__ volatile("incl (%0)" : : "r"(&counter) : "memory", "cc"); /* RACE */
#else
    counter++; /* RACE */
#endif
    IF_CLEAN(UNLOCK(mutex));
    return argument;
}

THREAD(reads) {
    LOCK(mutex);
    int seen = counter; /* RACE */
    UNLOCK(mutex);
    return seen == 9 ? argument : NULL;
}

int main(void) {
    run_both(raises, reads);
    return 0;
}
