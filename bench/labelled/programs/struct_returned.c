/* A function returns a struct into a shared variable. The racy twin does so without the mutex. */
#include "pair.h"
struct state {
    long a, b, c, d;
};
static pthread_mutex_t mutex = PTHREAD_MUTEX_INITIALIZER;
static struct state state;

__attribute__((noinline)) static struct state make(long n) { return (struct state){n, n, n, n}; }

THREAD(sets) {
    IF_CLEAN(LOCK(mutex));
    state = make(4); /* RACE */
    IF_CLEAN(UNLOCK(mutex));
    return argument;
}

THREAD(reads) {
    LOCK(mutex);
    long seen = state.b; /* RACE */
    UNLOCK(mutex);
    return seen == 9 ? argument : NULL;
}

int main(void) {
    run_both(sets, reads);
    return 0;
}
