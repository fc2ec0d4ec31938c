/* A semaphore is used as a mutex. The racy one lets two threads in. */
#include "pair.h"
static sem_t room;
static int value;

THREAD(changes) {
    sem_wait(&room);
    value++; /* RACE */
    sem_post(&room);
    return argument;
}

int main(void) {
    sem_init(&room, 0, IF_RACY(2) IF_CLEAN(1));
    run_both(changes, changes);
    return value == 9;
}
