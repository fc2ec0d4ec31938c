/* A block that realloc leaves where it is was given back all the same: who still uses the old pointer races. */
#include <pthread.h>
#include <stdio.h>
#include <stdlib.h>
static pthread_mutex_t m = PTHREAD_MUTEX_INITIALIZER;
static char *cut, *stays, *locked;
static __thread volatile long n;

static void guards(size_t size) {
    pthread_mutex_lock(&m);
    locked = realloc(locked, size);
    locked[10]++;
    pthread_mutex_unlock(&m);
}

static void *moves(void *p) {
    char *old = cut, *now = realloc(old, 60);       /* RACE cut */
    char *other = stays, *there = realloc(other, 64); /* RACE stays */
    n += now != NULL && there != NULL;
    for (size_t k = 0; k < 4; k++) guards(60 + k);
    return p;
}

static void *uses(void *p) {
    n += cut[5];  /* RACE cut */
    stays[7] = 2; /* RACE stays */
    for (size_t k = 0; k < 4; k++) guards(64 - k);
    return p;
}

int main(void) {
    pthread_t t[2];
    cut = calloc(1, 64), stays = calloc(1, 64), locked = calloc(1, 64);
    pthread_create(&t[0], NULL, moves, NULL), pthread_create(&t[1], NULL, uses, NULL);
    for (int k = 0; k < 2; k++) pthread_join(t[k], NULL);
    printf("%d\n", locked[10]);
    return 0;
}
