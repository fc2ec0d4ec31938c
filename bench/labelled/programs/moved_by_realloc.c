/* A block grows while the other thread reads it by its old pointer; the clean twin holds a mutex. */
#include "pair.h"
static pthread_mutex_t mutex = PTHREAD_MUTEX_INITIALIZER;
static int *block;

THREAD(grows) {
    IF_RACY(usleep(1000);)
    IF_CLEAN(LOCK(mutex));
    block = realloc(block, 100000); /* RACE */
    IF_CLEAN(UNLOCK(mutex));
    return argument;
}

THREAD(reads) {
    IF_CLEAN(LOCK(mutex));
    int seen = *block; /* RACE */
    IF_CLEAN(UNLOCK(mutex));
    return seen == 9 ? argument : NULL;
}

int main(void) {
    block = calloc(1, 8);
    run_both(grows, reads);
    return 0;
}
