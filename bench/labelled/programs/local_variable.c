/* A thread writes a local variable of its maker; the racy maker reads it before the join. */
#include "pair.h"

THREAD(writes) {
    *(int *)argument = 3; /* RACE */
    return NULL;
}

__attribute__((noinline)) static int run(void) {
    int local = 0;
    pthread_create(&first_thread, NULL, writes, &local);
    IF_CLEAN(pthread_join(first_thread, NULL));
    int seen = local; /* RACE */
    IF_RACY(pthread_join(first_thread, NULL));
    return seen;
}

int main(void) {
    return run() == 9;
}
