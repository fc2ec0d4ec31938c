/* A wide text is replaced while the other thread measures it; the clean twin has a mutex. */
#include "pair.h"
#include <wchar.h>
static pthread_mutex_t mutex = PTHREAD_MUTEX_INITIALIZER;
static wchar_t text[16] = L"one";

THREAD(replaces) {
    IF_CLEAN(LOCK(mutex));
    wcscpy(text, argument ? L"four" : L"three"); /* RACE */
    IF_CLEAN(UNLOCK(mutex));
    return argument;
}

THREAD(measures) {
    IF_CLEAN(LOCK(mutex));
    need(wcslen(text) < 9); /* RACE */
    IF_CLEAN(UNLOCK(mutex));
    return argument;
}

int main(void) {
    run_both(replaces, measures);
    return 0;
}
