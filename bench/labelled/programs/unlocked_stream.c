/* A letter goes through a pipe by the unlocked calls of streams. The racy twin writes its data after it sends. */
#include "pair.h"
static int ends[2];
static FILE *from, *to;
static int data, seen;

THREAD(sends) {
    IF_CLEAN(data = 1;)
    putc_unlocked('x', to);
    fflush_unlocked(to);
    IF_RACY(data = 1;) /* RACE */
    return argument;
}

THREAD(receives) {
    need(getc_unlocked(from) == 'x');
    seen = data; /* RACE */
    return argument;
}

int main(void) {
    need(!pipe(ends));
    from = fdopen(ends[0], "r");
    to = fdopen(ends[1], "w");
    run_both(sends, receives);
    return seen == 9;
}
