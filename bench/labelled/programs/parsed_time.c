/* Two threads parse a time into one struct; the clean twin has one for each. */
#include "pair.h"
#include <time.h>
static struct tm found[2];

THREAD(first) {
    strptime("12:30", "%H:%M", &found[0]); /* RACE */
    return argument;
}

THREAD(second) {
    strptime("13:40", "%H:%M", &found[IF_RACY(0) IF_CLEAN(1)]); /* RACE */
    return argument;
}

int main(void) {
    run_both(first, second);
    return found[0].tm_hour == 99;
}
