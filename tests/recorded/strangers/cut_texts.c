/* Texts that the C library cuts, searches and joins in memory that two threads share. */
#define _GNU_SOURCE
#include <pthread.h>
#include <stdio.h>
#include <stdlib.h>
#include <string.h>
static char a[32], b[32], c[32] = "one two", d[32] = "one,two", e[32] = "aab", f[32] = "xxy", g[32] = "key=value";
static char h[32] = "a/b/c", i[32] = "needle", j[32], k[32] = "word word", l[8], m[32] = "text", *q = d, *place;
static __thread char *volatile found;
static char *volatile made;
static __thread volatile long n;

static void *cuts(void *p) {
    snprintf(a, 4, "%s", p); /* RACE a */
    stpncpy(b, p, 6); /* RACE b */
    found = strtok_r(c, " ", &place); /* RACE c */
    found = strsep(&q, ","); /* RACE d */
    n += strspn(e, "a"); /* RACE e */
    n += strcspn(f, "y"); /* RACE f */
    found = strpbrk(g, "="); /* RACE g */
    found = memrchr(h, '/', 5); /* RACE h */
    found = memmem(i, 6, "dl", 2); /* RACE i */
    memccpy(j, p, 'y', 9); /* RACE j */
    found = strtok(k, " "); /* RACE k */
    n += asprintf((char **)&made, "%.2s", m); /* RACE l */
    n += snprintf(NULL, 0, "%.*s", 2, m + 8); /* RACE o */
    return p;
}

static void *reads(void *p) {
    n += a[3]; /* RACE a */
    n += b[5]; /* RACE b */
    n += c[3] + (place != NULL); /* RACE c */
    n += d[3] + (q != NULL); /* RACE d */
    e[2] = 'b'; /* RACE e */
    f[2] = 'y'; /* RACE f */
    g[3] = '='; /* RACE g */
    h[3] = '/'; /* RACE h */
    i[3] = 'd'; /* RACE i */
    n += j[5]; /* RACE j */
    found = strtok(l, " "); /* RACE k */
    m[1] = 'x'; /* RACE l */
    m[9] = 'x'; /* RACE o */
    n += a[4] + b[6] + j[6], c[4] = d[4] = e[3] = f[3] = g[4] = h[2] = i[5] = m[2] = m[10] = 'z';
    return p;
}

int main(void) {
    pthread_t t[2];
    memset(m + 8, 'x', 4);
    pthread_create(&t[0], NULL, cuts, "textxyz");
    pthread_create(&t[1], NULL, reads, NULL);
    for (int r = 0; r < 2; r++) pthread_join(t[r], NULL);
    free((void *)made);
    printf("%s %s %s\n", a, b, j);
    return 0;
}
