/* strcpy and strlen go over one text; the clean twin holds a mutex. */
#include "pair.h"
static pthread_mutex_t mutex = PTHREAD_MUTEX_INITIALIZER;
static char text[32] = "before";

THREAD(sets) {
    IF_CLEAN(LOCK(mutex));
    strcpy(text, "after"); /* RACE */
    IF_CLEAN(UNLOCK(mutex));
    return argument;
}

THREAD(counts) {
    IF_CLEAN(LOCK(mutex));
    size_t length = strlen(text); /* RACE */
    IF_CLEAN(UNLOCK(mutex));
    return length == 5 ? argument : NULL;
}

int main(void) {
    run_both(sets, counts);
    return 0;
}
