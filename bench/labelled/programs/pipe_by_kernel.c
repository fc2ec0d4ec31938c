/* A byte goes through a pipe by direct calls of the system. The racy twin writes its data after it sends. */
#include "pair.h"
#include <sys/syscall.h>
static int ends[2];
static int data, seen;

THREAD(sends) {
    IF_CLEAN(data = 1;)
    need(syscall(SYS_write, ends[1], "x", 1) == 1);
    IF_RACY(data = 1;) /* RACE */
    return argument;
}

THREAD(receives) {
    char byte;
    need(syscall(SYS_read, ends[0], &byte, 1) == 1);
    seen = data; /* RACE */
    return argument;
}

int main(void) {
    need(!pipe(ends));
    run_both(sends, receives);
    return seen == 9;
}
