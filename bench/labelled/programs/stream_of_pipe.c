/* A line goes through a pipe by streams. The racy twin writes its data after it sends. */
#include "pair.h"
static int ends[2];
static FILE *from, *to;
static int data, seen;

THREAD(sends) {
    IF_CLEAN(data = 1;)
    fputs("line\n", to);
    fflush(to);
    IF_RACY(data = 1;) /* RACE */
    return argument;
}

THREAD(receives) {
    char line[16];
    need(fgets(line, 16, from) != NULL);
    seen = data; /* RACE */
    return argument;
}

int main(void) {
    need(!pipe(ends));
    from = fdopen(ends[0], "r");
    to = fdopen(ends[1], "w");
    run_both(sends, receives);
    return seen == 9;
}
