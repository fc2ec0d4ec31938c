/* A byte of a named pipe says that data are there. The racy twin writes its data after it sends. */
#include "pair.h"
static char path[64];
static int data, seen;

THREAD(sends) {
    IF_CLEAN(data = 1;)
    int file = open(path, O_WRONLY);
    need(write(file, "x", 1) == 1);
    IF_RACY(data = 1;) /* RACE */
    close(file);
    return argument;
}

THREAD(receives) {
    char byte;
    int file = open(path, O_RDONLY);
    need(read(file, &byte, 1) == 1);
    close(file);
    seen = data; /* RACE */
    return argument;
}

int main(void) {
    snprintf(path, sizeof path, "/tmp/labelled.%d", (int)getpid());
    need(!mkfifo(path, 0600));
    run_both(sends, receives);
    unlink(path);
    return seen == 9;
}
