/* A destructor of a thread's own value runs at its end. The racy maker reads before the join. */
#include "pair.h"
static pthread_key_t key;
static int ended;

static void ends(void *value) { ended = *(int *)value; } /* RACE */

THREAD(works) {
    static int value = 1;
    pthread_setspecific(key, &value);
    return argument;
}

int main(void) {
    pthread_key_create(&key, ends);
    pthread_create(&first_thread, NULL, works, NULL);
    IF_CLEAN(pthread_join(first_thread, NULL));
    int seen = ended; /* RACE */
    IF_RACY(pthread_join(first_thread, NULL));
    return seen == 9;
}
