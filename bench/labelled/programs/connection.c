/* A byte through a TCP connection says that data are there. The racy twin writes its data after it sends. */
#include "pair.h"
#include <netinet/in.h>
static struct sockaddr_in address = {.sin_family = AF_INET};
static int listener;
static int data, seen;

THREAD(sends) {
    IF_CLEAN(data = 1;)
    int file = socket(AF_INET, SOCK_STREAM, 0);
    need(!connect(file, (struct sockaddr *)&address, sizeof address));
    need(write(file, "x", 1) == 1);
    IF_RACY(data = 1;) /* RACE */
    close(file);
    return argument;
}

THREAD(receives) {
    char byte;
    int file = accept(listener, NULL, NULL);
    need(read(file, &byte, 1) == 1);
    close(file);
    seen = data; /* RACE */
    return argument;
}

int main(void) {
    socklen_t size = sizeof address;
    address.sin_addr.s_addr = htonl(INADDR_LOOPBACK);
    listener = socket(AF_INET, SOCK_STREAM, 0);
    need(!bind(listener, (struct sockaddr *)&address, sizeof address));
    need(!getsockname(listener, (struct sockaddr *)&address, &size));
    need(!listen(listener, 1));
    run_both(sends, receives);
    return seen == 9;
}
