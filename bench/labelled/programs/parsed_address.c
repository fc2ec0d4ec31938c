/* Two threads parse an address into one variable; the clean twin has one for each. */
#include "pair.h"
#include <arpa/inet.h>
static struct in_addr found[2];

THREAD(first) {
    inet_aton("10.0.0.1", &found[0]); /* RACE */
    return argument;
}

THREAD(second) {
    inet_aton("10.0.0.2", &found[IF_RACY(0) IF_CLEAN(1)]); /* RACE */
    return argument;
}

int main(void) {
    run_both(first, second);
    return found[0].s_addr == 9;
}
