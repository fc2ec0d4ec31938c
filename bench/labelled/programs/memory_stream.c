/* A stream of open_memstream is flushed, so the length of its text changes; the other thread reads the length. The
 * clean twin has a mutex. */
#include "pair.h"
static pthread_mutex_t mutex = PTHREAD_MUTEX_INITIALIZER;
static char *text;
static size_t length;
static FILE *stream;

THREAD(writes) {
    IF_CLEAN(LOCK(mutex));
    need(fputs("words", stream) >= 0);
    need(!fflush(stream)); /* RACE */
    IF_CLEAN(UNLOCK(mutex));
    return argument;
}

THREAD(reads) {
    IF_CLEAN(LOCK(mutex));
    need(length < 9); /* RACE */
    IF_CLEAN(UNLOCK(mutex));
    return argument;
}

int main(void) {
    stream = open_memstream(&text, &length);
    run_both(writes, reads);
    need(!fclose(stream));
    free(text);
    return 0;
}
