/* Two threads open, read and close a file, so both may get the same number: that gives no order. The clean twin has a
 * mutex around the buffer. */
#include "pair.h"
static pthread_mutex_t mutex = PTHREAD_MUTEX_INITIALIZER;
static char buffer[16];

THREAD(looks) {
    int file = open("/proc/self/stat", O_RDONLY);
    IF_CLEAN(LOCK(mutex));
    need(pread(file, buffer, 5, 0) == 5); /* RACE */
    IF_CLEAN(UNLOCK(mutex));
    close(file);
    return argument;
}

int main(void) {
    run_both(looks, looks);
    return buffer[0] == 'x';
}
