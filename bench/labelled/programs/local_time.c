/* localtime fills a struct of the C library for all threads; the clean twin calls localtime_r. */
#include "pair.h"
#include <time.h>

THREAD(looks) {
    time_t now = 1000;
    struct tm own;
    struct tm *found = IF_RACY(localtime(&now)) IF_CLEAN(localtime_r(&now, &own)); /* RACE */
    return found->tm_year == 9 ? argument : NULL; /* RACE */
}

int main(void) {
    run_both(looks, looks);
    return 0;
}
