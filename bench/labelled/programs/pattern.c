/* A regular expression is compiled anew while the other thread matches by it; the clean twin has a mutex. */
#include "pair.h"
#include <regex.h>
static pthread_mutex_t mutex = PTHREAD_MUTEX_INITIALIZER;
static regex_t pattern;

THREAD(compiles) {
    IF_CLEAN(LOCK(mutex));
    need(!regcomp(&pattern, "[bc]", REG_NOSUB)); /* RACE */
    IF_CLEAN(UNLOCK(mutex));
    return argument;
}

THREAD(matches) {
    IF_CLEAN(LOCK(mutex));
    need(!regexec(&pattern, "abc", 0, NULL, 0)); /* RACE */
    IF_CLEAN(UNLOCK(mutex));
    return argument;
}

int main(void) {
    need(!regcomp(&pattern, "b", REG_NOSUB));
    run_both(compiles, matches);
    return 0;
}
