/* strtok keeps its place for all threads; the clean twin calls strtok_r. */
#include "pair.h"

static int count(char *text) {
    int found = 0;
    IF_CLEAN(char *place;)
#ifdef RACY
    for (char *part = strtok(text, " "); part; part = strtok(NULL, " ")) found++; /* RACE */
#else
    for (char *part = strtok_r(text, " ", &place); part; part = strtok_r(NULL, " ", &place)) found++;
#endif
    return found;
}

THREAD(first) {
    char text[] = "a b c";
    return count(text) == 9 ? argument : NULL;
}

THREAD(second) {
    char text[] = "d e";
    return count(text) == 9 ? argument : NULL;
}

int main(void) {
    run_both(first, second);
    return 0;
}
