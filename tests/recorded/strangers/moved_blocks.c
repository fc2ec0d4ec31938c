/* Blocks that move: realloc, aligned memory, copies that overlap, and strings that are written while they are read. */
#define _GNU_SOURCE
#include <pthread.h>
#include <stdatomic.h>
#include <stdio.h>
#include <stdlib.h>
#include <string.h>
static pthread_mutex_t m = PTHREAD_MUTEX_INITIALIZER;
static char *grown, *aligned, text[64], name[32];
static const char *volatile long_text = "a text that is long";
static char *volatile short_block;
static _Atomic(char *) moved;
static size_t size;
static int lengths;
static void *grows(void *p) {
    for (int k = 1; k <= 8; k++) {
        pthread_mutex_lock(&m);
        grown = realloc(grown, size + 4000), memset(grown + size, k, 4000), size += 4000;
        memmove(aligned + 8, aligned, 100), aligned[0] = (char)k;
        pthread_mutex_unlock(&m);
    }
    char *now = realloc(short_block, 400000); /* RACE moved */
    atomic_store_explicit(&moved, now, memory_order_relaxed);
    strcpy(text, long_text); /* RACE text */
    snprintf(name, sizeof name, "%d", 42); /* RACE name */
    return p;
}
static void *reads(void *p) {
    long sum = 0;
    for (int k = 0; k < 8; k++) {
        pthread_mutex_lock(&m);
        for (size_t at = 0; at < size; at += 1000) sum += grown[at];
        sum += aligned[8] * 0;
        pthread_mutex_unlock(&m);
    }
    char *seen;
    while (!(seen = atomic_load_explicit(&moved, memory_order_relaxed))) {}
    sum += seen[90]; /* RACE moved */
    lengths += strlen(text) < 20; /* RACE text */
    lengths += name[0] != 1; /* RACE name */
    *(long *)p = sum;
    return NULL;
}
int main(void) {
    pthread_t t[2];
    long sum = 0;
    if (posix_memalign((void **)&aligned, 256, 512)) return 1;
    memset(aligned, 0, 512);
    short_block = calloc(1, 100);
    pthread_create(&t[0], NULL, grows, NULL), pthread_create(&t[1], NULL, reads, &sum);
    for (int k = 0; k < 2; k++) pthread_join(t[k], NULL);
    printf("%zu %d %d %s %s %d\n", size, lengths, aligned[0], text, name, sum >= 0);
    free(grown), free(aligned);
    return 0;
}
