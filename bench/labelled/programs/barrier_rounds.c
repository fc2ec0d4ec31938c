/* A thread reads what the other wrote in this round. The racy twin has no second barrier, so the next round's write may
 * come before the read. */
#include "pair.h"
static pthread_barrier_t barrier;
static int value;

THREAD(writes) {
    for (int round = 0; round < 2; round++) {
        value = round; /* RACE */
        pthread_barrier_wait(&barrier);
        IF_CLEAN(pthread_barrier_wait(&barrier));
    }
    return argument;
}

THREAD(reads) {
    int sum = 0;
    for (int round = 0; round < 2; round++) {
        pthread_barrier_wait(&barrier);
        sum += value; /* RACE */
        IF_CLEAN(pthread_barrier_wait(&barrier));
    }
    return sum == 9 ? argument : NULL;
}

int main(void) {
    pthread_barrier_init(&barrier, NULL, 2);
    run_both(writes, reads);
    return 0;
}
