/* Two threads read lines into one block; the clean twin holds a mutex. */
#include "pair.h"
static pthread_mutex_t mutex = PTHREAD_MUTEX_INITIALIZER;
static char *line;
static size_t room;

THREAD(reads) {
    FILE *file = fopen("/proc/self/status", "r");
    IF_CLEAN(LOCK(mutex));
    need(getline(&line, &room, file) > 0); /* RACE */
    IF_CLEAN(UNLOCK(mutex));
    fclose(file);
    return argument;
}

int main(void) {
    line = malloc(4096), room = 4096;
    run_both(reads, reads);
    return line[0] == 'x';
}
