/* One thread adds to a tree of tsearch while the other looks something up; the clean twin has a mutex. */
#include "pair.h"
#include <search.h>
static pthread_mutex_t mutex = PTHREAD_MUTEX_INITIALIZER;
static const int added = 4, wanted = 9;
static void *root;

static int compare(const void *one, const void *other) { return *(const int *)one - *(const int *)other; }

THREAD(adds) {
    IF_CLEAN(LOCK(mutex));
    need(tsearch(&added, &root, compare) != NULL); /* RACE */
    IF_CLEAN(UNLOCK(mutex));
    return argument;
}

THREAD(looks) {
    IF_CLEAN(LOCK(mutex));
    need(tfind(&wanted, &root, compare) == NULL); /* RACE */
    IF_CLEAN(UNLOCK(mutex));
    return argument;
}

int main(void) {
    run_both(adds, looks);
    return root == NULL;
}
