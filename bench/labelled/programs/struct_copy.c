/* A struct is copied while a field of it is written; the clean twin copies under the mutex. */
#include "pair.h"
struct point {
    int x, y, z[6];
};
static pthread_mutex_t mutex = PTHREAD_MUTEX_INITIALIZER;
static struct point point;

THREAD(writes) {
    LOCK(mutex);
    point.y = 1; /* RACE */
    UNLOCK(mutex);
    return argument;
}

THREAD(copies) {
    IF_CLEAN(LOCK(mutex));
    struct point copy = point; /* RACE */
    IF_CLEAN(UNLOCK(mutex));
    return copy.y == 9 ? argument : NULL;
}

int main(void) {
    run_both(writes, copies);
    return 0;
}
