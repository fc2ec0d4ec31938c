/* The lock of a stream guards a count of its lines; the racy twin does not take it. */
#include "pair.h"
static FILE *stream;
static int lines;

THREAD(writes) {
    IF_CLEAN(flockfile(stream);)
    lines++; /* RACE */
    IF_CLEAN(funlockfile(stream);)
    return argument;
}

int main(void) {
    stream = fopen("/dev/null", "w");
    need(stream != NULL);
    run_both(writes, writes);
    return lines == 9;
}
