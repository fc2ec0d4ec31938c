/* A detached thread posts when it is done. The racy maker does not wait. */
#include "pair.h"
static int result;
static sem_t done;

THREAD(works) {
    result = 1; /* RACE */
    sem_post(&done);
    return argument;
}

int main(void) {
    sem_init(&done, 0, 0);
    pthread_create(&first_thread, NULL, works, NULL);
    pthread_detach(first_thread);
    IF_CLEAN(sem_wait(&done));
    int seen = result; /* RACE */
    IF_RACY(sem_wait(&done));
    return seen == 9;
}
