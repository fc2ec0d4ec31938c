/* The racy twin destroys a semaphore that the other thread may still post. */
#include "pair.h"
static sem_t semaphore;

THREAD(posts) {
    sem_post(&semaphore); /* RACE */
    return argument;
}

THREAD(destroys) {
    IF_RACY(usleep(1000);)
    IF_RACY(sem_destroy(&semaphore);) /* RACE */
    return argument;
}

int main(void) {
    sem_init(&semaphore, 0, 0);
    run_both(posts, destroys);
    IF_CLEAN(sem_destroy(&semaphore));
    return 0;
}
