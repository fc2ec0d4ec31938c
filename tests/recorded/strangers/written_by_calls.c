/* What calls write for their caller, in memory that another thread reads. */
#define _GNU_SOURCE
#include <fcntl.h>
#include <pthread.h>
#include <stdio.h>
#include <stdlib.h>
#include <sys/socket.h>
#include <unistd.h>
static pthread_t id, other;
static void *value, *seen_value;
static int ends[2], both[2];
static char *line, bytes[8], letters[8];
static size_t room;
static FILE *file;
static __thread volatile long n;

static void *nothing(void *p) { return p; }

static void *calls(void *p) {
    int zeros = open("/dev/zero", O_RDONLY);
    if (pthread_create(&id, NULL, nothing, p)) abort(); /* RACE a */
    if (pthread_create(&other, NULL, nothing, p)) abort();
    pthread_join(other, &value); /* RACE b */
    if (pipe(ends)) abort(); /* RACE c */
    if (socketpair(AF_UNIX, SOCK_STREAM, 0, both)) abort(); /* RACE d */
    n += getdelim(&line, &room, 10, file); /* RACE e */
    n += read(zeros, bytes, 4); /* RACE f */
    n += pread(zeros, letters, 4, 0); /* RACE g */
    pthread_join(id, &seen_value);
    return p;
}

static void *reads(void *p) {
    n += id != 0; /* RACE a */
    n += value != NULL; /* RACE b */
    n += ends[1]; /* RACE c */
    n += both[1]; /* RACE d */
    n += (long)room + (line != NULL); /* RACE e */
    n += bytes[3]; /* RACE f */
    n += letters[3]; /* RACE g */
    n += bytes[4] + letters[4];
    return p;
}

int main(void) {
    pthread_t t[2];
    file = fmemopen((void *)"words\n", 6, "r");
    pthread_create(&t[0], NULL, calls, NULL);
    pthread_create(&t[1], NULL, reads, NULL);
    for (int k = 0; k < 2; k++) pthread_join(t[k], NULL);
    puts("done");
    return 0;
}
