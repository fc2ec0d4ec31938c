/* The program has its own malloc. */
#include <pthread.h>
#include <stddef.h>
#include <stdio.h>
#include <string.h>
#include <unistd.h>
static char pool[1 << 22];
static size_t used;
static pthread_mutex_t m = PTHREAD_MUTEX_INITIALIZER;
static volatile int racy;
void *malloc(size_t n) {
    pthread_mutex_lock(&m);
    void *p = pool + used;
    used += (n + 31) / 16 * 16;
    pthread_mutex_unlock(&m);
    return p;
}
void free(void *p) { (void)p; }
void *calloc(size_t a, size_t b) {
    void *p = malloc(a * b);
    memset(p, 0, a * b);
    return p;
}
void *realloc(void *p, size_t n) {
    void *q = malloc(n);
    if (p) memcpy(q, p, n);
    return q;
}
static void *work(void *p) {
    char *s = malloc(10);
    s[0] = 1;
    racy++; /* RACE */
    return p;
}
int main(void) {
    pthread_t t[2];
    for (int k = 0; k < 2; k++) pthread_create(&t[k], NULL, work, NULL);
    for (int k = 0; k < 2; k++) pthread_join(t[k], NULL);
    puts("done");
    return 0;
}
