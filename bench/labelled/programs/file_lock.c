/* Two threads lock a file by their own descriptors. The racy twin locks it shared. */
#include "pair.h"
#include <sys/file.h>
static char path[64];
static int value;

THREAD(changes) {
    int file = open(path, O_RDWR);
    need(!flock(file, IF_RACY(LOCK_SH) IF_CLEAN(LOCK_EX)));
    value++; /* RACE */
    need(!flock(file, LOCK_UN));
    close(file);
    return argument;
}

int main(void) {
    snprintf(path, sizeof path, "/tmp/labelled.%d.lock", (int)getpid());
    close(creat(path, 0600));
    run_both(changes, changes);
    unlink(path);
    return value == 9;
}
