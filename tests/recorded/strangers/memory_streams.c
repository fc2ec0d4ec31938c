/* A stream of memory lies in a block that held the number of a pipe's end before: the pipe stays open when the stream is
 * closed, and orders what comes before and after it. Where its text is, and its size, is written for the program. */
#define _GNU_SOURCE
#include <pthread.h>
#include <stdio.h>
#include <stdlib.h>
#include <unistd.h>
static int ends[2];
static volatile int raced, ordered;
static FILE *stream, *flushed;
static char *text, *flushed_text;
static size_t size, flushed_size;
static __thread volatile long n;

static void fill_blocks(void) {
    volatile int *blocks[32];
    for (size_t k = 0; k < 32; k++) {
        blocks[k] = malloc(300 + 16 * k);
        for (size_t i = 0; i < 300 / sizeof(int) + 4 * k; i++) blocks[k][i] = ends[1];
    }
    for (int k = 0; k < 32; k++) free((void *)blocks[k]);
}

static void *sends(void *p) {
    fputs("letters", stream), fputs("more", flushed);
    fclose(stream); /* RACE b */
    fflush(flushed); /* RACE c */
    raced = 1; /* RACE a */
    ordered = 1;
    if (write(ends[1], "a", 1) != 1) abort();
    return p;
}

static void *receives(void *p) {
    char letter;
    raced = 2; /* RACE a */
    n += text != NULL; /* RACE b */
    n += (long)flushed_size; /* RACE c */
    if (read(ends[0], &letter, 1) != 1) abort();
    ordered = 2;
    return p;
}

int main(void) {
    pthread_t t[2];
    if (pipe(ends)) abort();
    fill_blocks();
    if (!(stream = open_memstream(&text, &size))) abort();
    if (!(flushed = open_memstream(&flushed_text, &flushed_size))) abort();
    pthread_create(&t[0], NULL, sends, NULL);
    pthread_create(&t[1], NULL, receives, NULL);
    for (int k = 0; k < 2; k++) pthread_join(t[k], NULL);
    fclose(flushed);
    printf("%s %zu %s %zu %d\n", text, size, flushed_text, flushed_size, ordered);
    free(text), free(flushed_text);
    return 0;
}
