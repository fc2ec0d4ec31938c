/* A byte through a socket with a path says that data are there. The racy twin writes its data after it sends. */
#include "pair.h"
#include <sys/un.h>
static struct sockaddr_un address = {.sun_family = AF_UNIX};
static int listener;
static int data, seen;

THREAD(sends) {
    IF_CLEAN(data = 1;)
    int file = socket(AF_UNIX, SOCK_STREAM, 0);
    need(!connect(file, (struct sockaddr *)&address, sizeof address));
    need(write(file, "x", 1) == 1);
    IF_RACY(data = 1;) /* RACE */
    close(file);
    return argument;
}

THREAD(receives) {
    char byte;
    int file = accept(listener, NULL, NULL);
    need(read(file, &byte, 1) == 1);
    close(file);
    seen = data; /* RACE */
    return argument;
}

int main(void) {
    snprintf(address.sun_path, sizeof address.sun_path, "/tmp/labelled.%d.socket", (int)getpid());
    listener = socket(AF_UNIX, SOCK_STREAM, 0);
    need(!bind(listener, (struct sockaddr *)&address, sizeof address));
    need(!listen(listener, 1));
    run_both(sends, receives);
    unlink(address.sun_path);
    return seen == 9;
}
