/* The racy twin goes on although its try of the semaphore was refused. */
#include "pair.h"
static sem_t there;
static int data, seen;

THREAD(writes) {
    data = 1; /* RACE */
    sem_post(&there);
    return argument;
}

THREAD(tries) {
    int refused = sem_trywait(&there);
    if (IF_CLEAN(!refused) IF_RACY(1)) seen = data; /* RACE */
    return argument;
}

int main(void) {
    sem_init(&there, 0, 0);
    run_both(writes, tries);
    return seen == 9;
}
