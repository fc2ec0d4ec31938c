/* Two bit-fields side by side are one memory location, and the racy twin has them so. */
#include "pair.h"
static struct {
    unsigned one : 3;
    IF_CLEAN(unsigned : 0;)
    unsigned two : 3;
} fields;

THREAD(first) {
    fields.one = 1; /* RACE */
    return argument;
}

THREAD(second) {
    fields.two = 2; /* RACE */
    return argument;
}

int main(void) {
    run_both(first, second);
    return fields.one == 7;
}
