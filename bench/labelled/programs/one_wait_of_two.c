/* Two threads post when they are done. The racy twin waits once, and reads what both wrote. */
#include "pair.h"
static sem_t done;
static int one, two;

THREAD(first) {
    one = 1; /* RACE */
    sem_post(&done);
    return argument;
}

THREAD(second) {
    two = 2; /* RACE */
    sem_post(&done);
    return argument;
}

int main(void) {
    sem_init(&done, 0, 0);
    start_both(first, second);
    sem_wait(&done);
    IF_CLEAN(sem_wait(&done));
    int sum = one; /* RACE */
    sum += two; /* RACE */
    join_both();
    return sum == 9;
}
