/* Two threads scramble one text; the clean twin has one for each. */
#include "pair.h"
static char texts[2][8];

THREAD(first) {
    memfrob(texts[0], 8); /* RACE */
    return argument;
}

THREAD(second) {
    memfrob(texts[IF_RACY(0) IF_CLEAN(1)], 8); /* RACE */
    return argument;
}

int main(void) {
    run_both(first, second);
    return texts[0][0] == 9;
}
