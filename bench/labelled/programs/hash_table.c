/* The C library has one hash table for all threads; the clean twin takes a mutex for it. */
#include "pair.h"
#include <search.h>
static pthread_mutex_t mutex = PTHREAD_MUTEX_INITIALIZER;

static void add(char *key) {
    ENTRY entry = {key, NULL};
    IF_CLEAN(LOCK(mutex));
    need(hsearch(entry, ENTER) != NULL); /* RACE */
    IF_CLEAN(UNLOCK(mutex));
}

THREAD(first) {
    add("one");
    return argument;
}

THREAD(second) {
    add("two");
    return argument;
}

int main(void) {
    need(hcreate(10));
    run_both(first, second);
    return 0;
}
