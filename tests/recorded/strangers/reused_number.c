/* The number of a pipe whose stream was closed is given to a file: what threads write to it orders nothing. */
#include <fcntl.h>
#include <pthread.h>
#include <stdio.h>
#include <stdlib.h>
#include <unistd.h>
static int file, unguarded;

static void *writes(void *p) {
    unguarded++; /* RACE */
    if (write(file, "a", 1) != 1) abort();
    return p;
}

static void *writes_later(void *p) {
    usleep(20000);
    if (write(file, "b", 1) != 1) abort();
    unguarded++; /* RACE */
    return p;
}

int main(void) {
    pthread_t a, b;
    int ends[2];
    if (pipe(ends)) abort();
    FILE *to = fdopen(ends[1], "w");
    if (!to || fputs("text", to) < 0 || fclose(to)) abort();
    file = open("/dev/null", O_WRONLY);
    if (file != ends[1]) abort();
    pthread_create(&a, NULL, writes, NULL), pthread_create(&b, NULL, writes_later, NULL);
    pthread_join(a, NULL), pthread_join(b, NULL);
    puts("done");
    return 0;
}
