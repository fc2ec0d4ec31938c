/* A byte of a file goes into a socket by sendfile. The racy twin writes its data after it sends. */
#include "pair.h"
#include <sys/sendfile.h>
static int ends[2];
static int data, seen;

THREAD(sends) {
    IF_CLEAN(data = 1;)
    int file = open("/proc/self/exe", O_RDONLY);
    need(sendfile(ends[1], file, NULL, 1) == 1);
    close(file);
    IF_RACY(data = 1;) /* RACE */
    return argument;
}

THREAD(receives) {
    char byte;
    need(recv(ends[0], &byte, 1, 0) == 1);
    seen = data; /* RACE */
    return argument;
}

int main(void) {
    need(!socketpair(AF_UNIX, SOCK_STREAM, 0, ends));
    run_both(sends, receives);
    return seen == 9;
}
