/* A post says that the data are there. The racy twin posts before it writes them. */
#include "pair.h"
static sem_t there;
static int data;

THREAD(writes) {
    IF_RACY(sem_post(&there);)
    data = 1; /* RACE */
    IF_CLEAN(sem_post(&there);)
    return argument;
}

THREAD(reads) {
    sem_wait(&there);
    return data == 9 ? argument : NULL; /* RACE */
}

int main(void) {
    sem_init(&there, 0, 0);
    run_both(writes, reads);
    return 0;
}
