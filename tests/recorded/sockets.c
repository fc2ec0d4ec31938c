/* Threads that talk over sockets and pipes: connect, accept, long messages, end of what comes. */
#include <arpa/inet.h>
#include <netinet/in.h>
#include <pthread.h>
#include <stdio.h>
#include <stdlib.h>
#include <string.h>
#include <sys/socket.h>
#include <unistd.h>
static volatile int racy;
static int listening, given, back, connected, by_close, by_shutdown, two[2]; static struct sockaddr_in at; static char big[1 << 20];
static void *server(void *p) {
    char c[1000]; ssize_t n, all = 0;
    racy++; /* RACE */
    int s = accept(listening, NULL, NULL);
    connected++;
    if (s < 0 || recv(s, c, 1, 0) != 1) abort();
    back = given + 1;
    if (send(s, "y", 1, 0) != 1) abort();
    while ((n = read(s, c, sizeof c)) > 0) all += n;
    by_shutdown++;
    if (all != sizeof big) abort();
    by_close = 1;
    close(two[1]);
    close(s);
    return p;
}
static void *client(void *p) {
    char c;
    int s = socket(AF_INET, SOCK_STREAM, 0);
    racy++; /* RACE */
    connected = 1;
    if (connect(s, (struct sockaddr *)&at, sizeof at)) abort();
    given = 1;
    if (write(s, "x", 1) != 1 || read(s, &c, 1) != 1) abort();
    printf("%d\n", back);
    by_shutdown = 1;
    if (write(s, big, sizeof big) != sizeof big) abort();
    shutdown(s, SHUT_WR);
    if (read(two[0], &c, 1) != 0) abort();
    by_close++;
    close(s);
    return p;
}
int main(void) {
    pthread_t a, b; socklen_t n = sizeof at;
    listening = socket(AF_INET, SOCK_STREAM, 0);
    at.sin_family = AF_INET; at.sin_addr.s_addr = htonl(INADDR_LOOPBACK);
    if (pipe(two) || bind(listening, (struct sockaddr *)&at, sizeof at) || listen(listening, 5) || getsockname(listening, (struct sockaddr *)&at, &n)) return 1;
    pthread_create(&a, NULL, server, NULL); pthread_create(&b, NULL, client, NULL);
    pthread_join(a, NULL); pthread_join(b, NULL);
    return 0;
}
