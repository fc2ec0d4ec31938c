/* The second thread looks at a flag under the mutex. The racy twin writes if the flag is not set yet. */
#include "pair.h"
static pthread_mutex_t mutex = PTHREAD_MUTEX_INITIALIZER;
static int flag, value;

THREAD(first) {
    IF_CLEAN(value = 1;)
    LOCK(mutex);
    flag = 1;
    UNLOCK(mutex);
    IF_RACY(value = 1;) /* RACE */
    return argument;
}

THREAD(second) {
    LOCK(mutex);
    int is_set = flag;
    UNLOCK(mutex);
    if (IF_RACY(!is_set) IF_CLEAN(is_set)) value = 2; /* RACE */
    return argument;
}

int main(void) {
    run_both(first, second);
    return value == 9;
}
