/* A table is made once. The racy twin looks at a plain flag first, and goes on without the call. */
#include "pair.h"
static pthread_once_t once = PTHREAD_ONCE_INIT;
static int made, table;

static void make(void) {
    table = 4; /* RACE */
    made = 1; /* RACE */
}

THREAD(uses) {
    if (IF_RACY(!made) IF_CLEAN(1)) pthread_once(&once, make); /* RACE */
    return table == 9 ? argument : NULL; /* RACE */
}

int main(void) {
    run_both(uses, uses);
    return 0;
}
