/* Two threads write their halves and read the other's. The racy twin does not wait between. */
#include "pair.h"
static pthread_barrier_t barrier;
static int half[2], sum[2];

static void works(int mine) {
    half[mine] = mine + 1; /* RACE */
    IF_CLEAN(pthread_barrier_wait(&barrier));
    sum[mine] = half[!mine]; /* RACE */
}

THREAD(first) {
    works(0);
    return argument;
}

THREAD(second) {
    works(1);
    return argument;
}

int main(void) {
    pthread_barrier_init(&barrier, NULL, 2);
    run_both(first, second);
    return sum[0] == 9;
}
