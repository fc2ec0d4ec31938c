/* One thread sets a variable of the environment, and the racy other looks one up. */
#include "pair.h"
static char *seen;

THREAD(sets) {
    setenv("LABELLED", "yes", 1); /* RACE */
    return argument;
}

THREAD(looks) {
    IF_RACY(seen = getenv("LABELLED");) /* RACE */
    return argument;
}

int main(void) {
    run_both(sets, looks);
    IF_CLEAN(seen = getenv("LABELLED"));
    return seen == (char *)9;
}
