/* What is sent through a pipe, a socket and an eventfd orders; what comes after the last is a race. */
#include <assert.h>
#include <pthread.h>
#include <stdint.h>
#include <sys/eventfd.h>
#include <sys/socket.h>
#include <unistd.h>
static int ends[2], pair[2], event, first, second, third, last;
static void *sender(void *none) {
    uint64_t one = 1;
    first = 1; assert(write(ends[1], "x", 1) == 1);
    second = 1; assert(send(pair[0], "y", 1, 0) == 1);
    third = 1; assert(write(event, &one, sizeof one) == sizeof one);
    last = 1;
    return none;
}
static void *receiver(void *none) {
    char byte; uint64_t count;
    assert(read(ends[0], &byte, 1) == 1 && first);
    assert(recv(pair[1], &byte, 1, 0) == 1 && second);
    assert(read(event, &count, sizeof count) == sizeof count && third);
    assert(!last);
    return none;
}
int main(void) {
    pthread_t a, b;
    event = eventfd(0, 0);
    if (pipe(ends) || socketpair(AF_UNIX, SOCK_STREAM, 0, pair)) return 1;
    pthread_create(&b, NULL, receiver, NULL); pthread_create(&a, NULL, sender, NULL);
    pthread_join(a, NULL); pthread_join(b, NULL);
    return 0;
}
