/* A System V semaphore says that data are there. The racy twin writes its data after it sends. */
#include "pair.h"
#include <sys/sem.h>
static int semaphores;
static int data, seen;

THREAD(sends) {
    IF_CLEAN(data = 1;)
    need(!semop(semaphores, &(struct sembuf){0, 1, 0}, 1));
    IF_RACY(data = 1;) /* RACE */
    return argument;
}

THREAD(receives) {
    need(!semop(semaphores, &(struct sembuf){0, -1, 0}, 1));
    seen = data; /* RACE */
    return argument;
}

int main(void) {
    semaphores = semget(IPC_PRIVATE, 1, 0600);
    need(semaphores >= 0);
    run_both(sends, receives);
    semctl(semaphores, 0, IPC_RMID);
    return seen == 9;
}
