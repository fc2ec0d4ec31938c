/* The string functions of the C library on memory that two threads share. */
#include <pthread.h>
#include <stdio.h>
#include <stdlib.h>
#include <string.h>
static char a[32], b[32], c[32], d[32], e[32], f[32], g[64], h[32], i[32];
static int numbers[8];
static char *volatile copy;
static volatile size_t n;
static int by_value(const void *x, const void *y) { return *(const int *)x - *(const int *)y; }
static void *writes(void *p) {
    const char *text = p;
    strcpy(a, text);                              /* RACE a */
    strncpy(b, text, 16);                         /* RACE b */
    strcat(c, text);                              /* RACE c */
    snprintf(d, sizeof d, "%s %d", text, 5);      /* RACE d */
    sprintf(e, "%s", text);                       /* RACE e */
    qsort(numbers, 8, sizeof *numbers, by_value); /* RACE f */
    g[0] = 'x';                                   /* RACE g */
    h[1] = 'y';                                   /* RACE h */
    i[2] = 'z';                                   /* RACE i */
    return NULL;
}
static void *reads(void *p) {
    n += a[0];             /* RACE a */
    n += b[15];            /* RACE b */
    n += c[0];             /* RACE c */
    n += d[1];             /* RACE d */
    n += e[0];             /* RACE e */
    n += numbers[2];       /* RACE f */
    n += strlen(g);        /* RACE g */
    n += strcmp(h, p) > 0; /* RACE h */
    copy = strdup(i);      /* RACE i */
    return NULL;
}
int main(int count, char **words) {
    pthread_t t[2];
    memset(g, 'g', 40), memset(h, 'h', 20), memset(i, 'i', 20);
    for (int k = 0; k < 8; k++) numbers[k] = 8 - k;
    pthread_create(&t[0], NULL, writes, count > 1 ? words[1] : "text");
    pthread_create(&t[1], NULL, reads, "hhhhx");
    for (int k = 0; k < 2; k++) pthread_join(t[k], NULL);
    puts("done");
    return 0;
}
