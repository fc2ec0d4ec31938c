/* A loop that a compiler makes wide reads and writes each element: also those of a part of each pair. */
#include <pthread.h>
#include <stdio.h>
struct pair {
    int a, b;
};
static struct pair pairs[64], guarded[64];
static int sums[64], others[64];
static pthread_mutex_t m = PTHREAD_MUTEX_INITIALIZER;

static void *adds(void *p) {
    int *restrict to = sums, *restrict kept = others;
    for (int k = 0; k < 64; k++) to[k] += pairs[k].a * pairs[k].b; /* RACE pairs */
    pthread_mutex_lock(&m);
    for (int k = 0; k < 64; k++) kept[k] += guarded[k].a * guarded[k].b;
    pthread_mutex_unlock(&m);
    return p;
}

static void *sets(void *p) {
    pairs[9].b = 0;  /* RACE pairs */
    pairs[50].a = 0; /* RACE pairs */
    pthread_mutex_lock(&m);
    guarded[9].b = guarded[50].a = 3;
    pthread_mutex_unlock(&m);
    return p;
}

int main(void) {
    pthread_t t[2];
    pthread_create(&t[0], NULL, adds, NULL), pthread_create(&t[1], NULL, sets, NULL);
    for (int k = 0; k < 2; k++) pthread_join(t[k], NULL);
    printf("%d %d\n", sums[9] + sums[50], others[1]);
    return 0;
}
