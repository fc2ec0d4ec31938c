/* The maker reads the result of its thread. The racy twin reads it before the join. */
#include "pair.h"
static int result;

THREAD(computes) {
    result = 3; /* RACE */
    return argument;
}

int main(void) {
    pthread_create(&first_thread, NULL, computes, NULL);
    IF_RACY(int early = result;) /* RACE */
    pthread_join(first_thread, NULL);
    return IF_RACY(early) IF_CLEAN(result) == 9;
}
