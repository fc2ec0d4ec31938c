/* One thread changes attributes while the other makes a thread by them; the clean twin has a mutex. */
#include "pair.h"
static pthread_mutex_t mutex = PTHREAD_MUTEX_INITIALIZER;
static pthread_attr_t attributes;

THREAD(works) { return argument; }

THREAD(sets) {
    IF_CLEAN(LOCK(mutex));
    need(!pthread_attr_setstacksize(&attributes, 1 << 20)); /* RACE */
    IF_CLEAN(UNLOCK(mutex));
    return argument;
}

THREAD(makes) {
    pthread_t made;
    IF_CLEAN(LOCK(mutex));
    need(!pthread_create(&made, &attributes, works, NULL)); /* RACE */
    IF_CLEAN(UNLOCK(mutex));
    pthread_join(made, NULL);
    return argument;
}

int main(void) {
    need(!pthread_attr_init(&attributes));
    run_both(sets, makes);
    return 0;
}
