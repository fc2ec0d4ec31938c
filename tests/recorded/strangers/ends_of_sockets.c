/* Who reads the end of a socket comes after who shut it down, or closed it; the other way of it is still open. */
#include <pthread.h>
#include <stdio.h>
#include <stdlib.h>
#include <sys/socket.h>
#include <unistd.h>
static int pair[2], other[2], before_end, before_answer, before_close, after;

static void *ends(void *p) {
    char c;
    before_end = 1;
    if (shutdown(pair[0], SHUT_WR)) abort();
    if (recv(pair[0], &c, 1, 0) != 1) abort();
    before_close = before_answer;
    close(other[0]);
    after = 1; /* RACE */
    return p;
}

static void *reads(void *p) {
    char c;
    if (recv(pair[1], &c, 1, 0)) abort();
    before_answer = before_end;
    if (send(pair[1], "a", 1, 0) != 1) abort();
    if (read(other[1], &c, 1)) abort();
    printf("%d\n", before_close);
    return after ? p : NULL; /* RACE */
}

int main(void) {
    pthread_t a, b;
    if (socketpair(AF_UNIX, SOCK_STREAM, 0, pair) || socketpair(AF_UNIX, SOCK_STREAM, 0, other)) abort();
    pthread_create(&a, NULL, ends, NULL), pthread_create(&b, NULL, reads, NULL);
    pthread_join(a, NULL), pthread_join(b, NULL);
    return 0;
}
