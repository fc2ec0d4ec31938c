/* lgamma keeps a sign for all threads; the clean twin calls lgamma_r. */
#include "pair.h"
#include <math.h>

THREAD(computes) {
    int sign = 0;
    double value = IF_RACY(lgamma(0.5)) IF_CLEAN(lgamma_r(0.5, &sign)); /* RACE */
    return value + sign == 9 ? argument : NULL;
}

int main(void) {
    run_both(computes, computes);
    return 0;
}
