/* Two threads ask what a file is, into one struct; the clean twin has one for each. */
#include "pair.h"
static struct stat about[2];

THREAD(first) {
    need(!fstatat(AT_FDCWD, "/", &about[0], 0)); /* RACE */
    return argument;
}

THREAD(second) {
    need(!fstatat(AT_FDCWD, "/", &about[IF_RACY(0) IF_CLEAN(1)], 0)); /* RACE */
    return argument;
}

int main(void) {
    run_both(first, second);
    return about[0].st_size == 9;
}
