/* What calls of sockets and files read and write of the program's memory: each piece that is sent or comes races with
 * who writes or reads it meanwhile, and what no message fills is no race. */
#define _GNU_SOURCE
#include <fcntl.h>
#include <pthread.h>
#include <stdio.h>
#include <stdlib.h>
#include <sys/socket.h>
#include <sys/uio.h>
#include <unistd.h>
#define SIZE 8
static int one[2], file;
static char out[6][SIZE], in[6][SIZE], rest[2 * SIZE], calm[SIZE];

static void *sends(void *p) {
    struct iovec two[2] = {{calm, 2}, {out[3], 2}};
    struct msghdr message = {.msg_iov = (struct iovec[]){{out[4], 4}}, .msg_iovlen = 1};
    if (send(one[0], out[1], 4, 0) != 4) abort(); /* RACE send */
    if (sendto(one[0], out[2], 4, 0, NULL, 0) != 4) abort(); /* RACE sendto */
    if (writev(one[0], two, 2) != 4) abort(); /* RACE writev */
    if (sendmsg(one[0], &message, 0) != 4) abort(); /* RACE sendmsg */
    if (pwrite(file, out[5], 4, 0) != 4) abort(); /* RACE pwrite */
    return p;
}

static void *changes(void *p) {
    out[1][0] = 1; /* RACE send */
    out[2][0] = 2; /* RACE sendto */
    out[3][0] = 3; /* RACE writev */
    out[4][0] = 4; /* RACE sendmsg */
    out[5][0] = 5; /* RACE pwrite */
    return p;
}

static void *receives(void *p) {
    struct iovec two[2] = {{in[3], 4}, {rest, SIZE}};
    struct msghdr message = {.msg_iov = (struct iovec[]){{in[4], SIZE}}, .msg_iovlen = 1};
    if (recv(one[1], in[1], 4, MSG_WAITALL) != 4) abort(); /* RACE recv */
    if (recvfrom(one[1], in[2], 4, MSG_WAITALL, NULL, NULL) != 4) abort(); /* RACE recvfrom */
    if (readv(one[1], two, 1) != 4) abort(); /* RACE readv */
    if (recvmsg(one[1], &message, 0) != 4) abort(); /* RACE recvmsg */
    if (pread(file, in[5], 4, 100) != 4) abort(); /* RACE pread */
    return p;
}

static void *looks(void *p) {
    int sum = 0;
    sum += in[1][0]; /* RACE recv */
    sum += in[2][0]; /* RACE recvfrom */
    sum += in[3][0]; /* RACE readv */
    sum += in[4][0]; /* RACE recvmsg */
    sum += in[5][0]; /* RACE pread */
    rest[0] = in[4][SIZE - 1];
    return sum == 3 ? NULL : p;
}

int main(void) {
    pthread_t t[4];
    FILE *kept = tmpfile();
    if (!kept || socketpair(AF_UNIX, SOCK_STREAM, 0, one)) abort();
    file = fileno(kept);
    if (pwrite(file, "0123", 4, 100) != 4) abort();
    void *(*all[])(void *) = {sends, changes, receives, looks};
    for (int k = 0; k < 4; k++) pthread_create(&t[k], NULL, all[k], NULL);
    for (int k = 0; k < 4; k++) pthread_join(t[k], NULL);
    printf("%d %d\n", out[1][0], calm[0]);
    return 0;
}
