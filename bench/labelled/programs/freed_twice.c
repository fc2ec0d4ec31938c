/* Two threads free one block if its pointer is set. The racy twin does so without the mutex. */
#include "pair.h"
static pthread_mutex_t mutex = PTHREAD_MUTEX_INITIALIZER;
static char *block;

THREAD(clears) {
    IF_CLEAN(LOCK(mutex));
    char *mine = block; /* RACE */
    block = NULL; /* RACE */
    IF_CLEAN(UNLOCK(mutex));
    free(mine);
    return argument;
}

int main(void) {
    block = malloc(8);
    run_both(clears, clears);
    return 0;
}
