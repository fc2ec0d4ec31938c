/* A function that is left by longjmp again and again. */
#include <pthread.h>
#include <setjmp.h>
#include <stdio.h>
#include <stdlib.h>
static __thread jmp_buf back;
static int racy, sum;
static pthread_mutex_t m = PTHREAD_MUTEX_INITIALIZER;
static void __attribute__((noinline)) deepest(int n) {
    sum += n;
    longjmp(back, 1);
}
static void __attribute__((noinline)) deep(int n) {
    deepest(n);
    sum--;
}
static void __attribute__((noinline)) once(int n) {
    if (!setjmp(back)) deep(n);
    sum++;
}
/* It leaves the library that calls it too. */
static int leaves(const void *a, const void *b) {
    if (a != b) longjmp(back, 1);
    return 0;
}
static void __attribute__((noinline)) touch(void) { racy++; /* RACE */ }
static void *work(void *p) {
    for (int k = 0; k < 50; k++) pthread_mutex_lock(&m), once(k), pthread_mutex_unlock(&m);
    int numbers[] = {2, 1};
    if (!setjmp(back)) qsort(numbers, 2, sizeof *numbers, leaves);
    touch();
    return p;
}
int main(void) {
    pthread_t t[2];
    for (int k = 0; k < 2; k++) pthread_create(&t[k], NULL, work, NULL);
    for (int k = 0; k < 2; k++) pthread_join(t[k], NULL);
    printf("%d\n", sum);
    return 0;
}
