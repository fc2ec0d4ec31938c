/* Blocks that are freed, moved and given out again. */
#include <pthread.h>
#include <stdio.h>
#include <stdlib.h>
#include <string.h>
static volatile char *freed_alias;
static char *moved, *freed, *grown;
static pthread_barrier_t b;
static volatile int sum;
static int ok;
static void *one(void *p) {
    for (int k = 0; k < 50; k++) {
        char *own = malloc(64);
        memset(own, k, 64);
        own = realloc(own, 64 + (size_t)k * 100);
        own[63]++;
        free(own);
    }
    pthread_barrier_wait(&b);
    grown = realloc(moved, 100000); /* RACE a */
    free(freed);                    /* RACE b */
    return p;
}
static void *two(void *p) {
    for (int k = 0; k < 50; k++) {
        char *own = calloc(64, 1);
        ok += own[5] == 0;
        own[5] = 1;
        free(own);
    }
    pthread_barrier_wait(&b);
    sum += ((volatile char *)p)[3]; /* RACE a */
    sum += freed_alias[100];        /* RACE b */
    return NULL;
}
int main(void) {
    pthread_t t[2];
    pthread_barrier_init(&b, NULL, 2);
    char *block = malloc(8192);
    moved = calloc(16, 1), freed = block;
    (void)block;
    memset(block, 1, 8192), freed_alias = block;
    struct {
        char *a, *b;
    } both = {moved, freed};
    (void)both;
    pthread_create(&t[0], NULL, one, NULL);
    pthread_create(&t[1], NULL, two, moved);
    for (int k = 0; k < 2; k++) pthread_join(t[k], NULL);
    printf("%d\n", ok);
    return 0;
}
