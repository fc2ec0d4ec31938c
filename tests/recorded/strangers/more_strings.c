/* Functions of the C library on memory that two threads share: those of `strings.c` are others. What a search does not
 * come to, and what a comparison does not need, is not read. */
#define _GNU_SOURCE
#include <pthread.h>
#include <stdarg.h>
#include <stdio.h>
#include <stdlib.h>
#include <string.h>
#include <strings.h>
static char a[32], b[32], c[32], d[32], e[32], f[32], g[32], h[32], i[32], j[32], k[32], l[32], m[32], o[32];
static char q[32], r[32];
static char s[8] = "ab";
static char *volatile copy;
static __thread volatile size_t n;
static FILE *file, *line;

static void prints(char *to, const char *format, ...) {
    va_list words;
    va_start(words, format);
    vsnprintf(to, 8, format, words); /* RACE l */
    va_end(words);
}

static void *writes(void *p) {
    bzero(a, 8);              /* RACE a */
    mempcpy(b, p, 4);         /* RACE b */
    stpcpy(c, p);             /* RACE c */
    strncat(d, p, 2);         /* RACE d */
    e[2] = 'x';               /* RACE e */
    f[3] = 'f';               /* RACE f */
    g[1] = 'g';               /* RACE g */
    h[4] = 'h';               /* RACE h */
    i[1] = 'i';               /* RACE i */
    j[2] = 'j';               /* RACE j */
    k[5] = 'k';               /* RACE k */
    prints(l, "%s", p);
    m[0] = 'm';               /* RACE m */
    if (fread(o, 2, 2, file)) /* RACE o */
        q[2] = '\n';          /* RACE q */
    n += fgets(r, 16, line) != NULL; /* RACE r */
    s[2] = 0;                        /* RACE s */
    s[3] = 0, e[5] = f[4] = g[9] = h[5] = i[8] = j[8] = k[12] = m[5] = q[5] = 'z';
    return NULL;
}

static void *reads(void *p) {
    n += a[7];                      /* RACE a */
    n += a[8];
    n += b[3];                      /* RACE b */
    n += b[4];
    n += c[4];                      /* RACE c */
    n += c[5];
    n += d[2];                      /* RACE d */
    n += d[3];
    n += memchr(e, 'x', 6) != NULL; /* RACE e */
    n += memcmp(f, p, 4) == 0;      /* RACE f */
    n += strcasecmp(g, "XYZZY") < 0; /* RACE g */
    n += strncasecmp(h, p, 5) < 0;  /* RACE h */
    n += strnlen(i, 8);             /* RACE i */
    n += strchr(j, 'y') != NULL;    /* RACE j */
    copy = strndup(k, 6);           /* RACE k */
    n += l[4];                      /* RACE l */
    fprintf(stderr, "%.3s\n", m);   /* RACE m */
    n += o[3];                      /* RACE o */
    fwrite(q, 1, 3, stderr);        /* RACE q */
    n += r[6];                      /* RACE r */
    n += strnlen(s, 8);             /* RACE s */
    n += l[5] + o[4] + r[7];
    return NULL;
}

int main(void) {
    pthread_t t[2];
    file = fopen("/dev/zero", "r"), line = fmemopen((void *)"words\n", 6, "r");
    memset(e, 'w', 30), memset(f, 'f', 30), memset(h, 'h', 30), memset(i, 'i', 30), memset(k, 'k', 30);
    strcpy(g, "xyzzy"), strcpy(j, "wwwwy"), strcpy(m, "mmmmmmmm"), e[2] = 'x', strcpy(q, "qq\n");
    pthread_create(&t[0], NULL, writes, "hhhh");
    pthread_create(&t[1], NULL, reads, "hhhhhhx");
    for (int x = 0; x < 2; x++) pthread_join(t[x], NULL);
    puts("done");
    return 0;
}
