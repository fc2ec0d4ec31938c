/* A connection comes with the address of who connected, and a block by its pointer: both lie in memory of the caller,
 * which another thread reads. */
#define _GNU_SOURCE
#include <arpa/inet.h>
#include <netinet/in.h>
#include <pthread.h>
#include <stdio.h>
#include <stdlib.h>
#include <sys/socket.h>
#include <unistd.h>
static int listener, passed_on;
static struct sockaddr_in address, peer;
static socklen_t size = sizeof peer, other_size;
static void *block;
static __thread volatile long n;

static void *serves(void *p) {
    char letter;
    int f = accept(listener, (struct sockaddr *)&peer, &size); /* RACE a */
    if (posix_memalign(&block, 64, 64)) abort(); /* RACE b */
    if (f < 0 || read(f, &letter, 1) != 1) abort();
    passed_on++;
    close(f);
    return p;
}

static void *connects(void *p) {
    int f = socket(AF_INET, SOCK_STREAM, 0);
    if (f < 0 || connect(f, (struct sockaddr *)&address, sizeof address)) abort();
    passed_on++;
    n += peer.sin_port; /* RACE a */
    n += block != NULL; /* RACE b */
    if (write(f, "a", 1) != 1) abort();
    close(f);
    return p;
}

int main(void) {
    pthread_t t[2];
    listener = socket(AF_INET, SOCK_STREAM, 0);
    address.sin_family = AF_INET, address.sin_addr.s_addr = htonl(INADDR_LOOPBACK);
    other_size = sizeof address;
    if (bind(listener, (struct sockaddr *)&address, sizeof address) || listen(listener, 1)) abort();
    if (getsockname(listener, (struct sockaddr *)&address, &other_size)) abort();
    pthread_create(&t[0], NULL, serves, NULL);
    pthread_create(&t[1], NULL, connects, NULL);
    for (int k = 0; k < 2; k++) pthread_join(t[k], NULL);
    printf("%d\n", passed_on);
    free(block);
    return 0;
}
