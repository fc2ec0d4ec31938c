/* A list under a mutex. The racy reader goes on from an element after it let go of the mutex. */
#include "pair.h"
struct element {
    struct element *next;
    int value;
};
static pthread_mutex_t mutex = PTHREAD_MUTEX_INITIALIZER;
static struct element last, *first = &last;

THREAD(adds) {
    struct element *made = calloc(1, sizeof *made);
    made->value = 1;
    LOCK(mutex);
    last.next = made; /* RACE */
    UNLOCK(mutex);
    return argument;
}

THREAD(walks) {
    LOCK(mutex);
    struct element *at = first;
    IF_RACY(UNLOCK(mutex));
    at = at->next; /* RACE */
    IF_CLEAN(UNLOCK(mutex));
    return at == argument ? argument : NULL;
}

int main(void) {
    run_both(adds, walks);
    return 0;
}
