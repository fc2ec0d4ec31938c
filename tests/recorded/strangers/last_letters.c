/* What a function of the C library reads or writes goes as far as its last letter, and no further. */
#define _GNU_SOURCE
#include <pthread.h>
#include <stdio.h>
#include <stdlib.h>
#include <string.h>
#include <strings.h>
static char a[8] = "abc", b[8] = "abcd", c[8] = "axc", d[8] = "lo", e[16] = "hello you", f[8] = "ab", g[8] = "gg";
static char h[8] = "hh", i[8] = "ab", j[8] = "BC", k[16] = "xxabcxx", l[8] = "abcd", m[8] = "abcd", o[8] = "lo";
static char q[8] = "abc", r[8] = "abc", s[8], t[8] = "ab", u[8] = "abcd", v[8] = "abcd", w[8], x[8] = "zzzz";
static char y[4] = " ", z[8] = "abcd";
static char ca[8] = "ab cd", cb[8] = "ab cd", da[8] = "ab,cd", db[8] = "ab,cd", dc[8] = "ab,cd", *at = dc, *made;
static __thread char own[32], *found, *place;
static __thread volatile long n;

static void *calls(void *p) {
    n += strcmp(p, a);                   /* RACE a */
    n += memcmp(p, b, 4);                /* RACE b */
    n += strrchr(c, 'x') != NULL;        /* RACE c */
    n += strstr("say hello", d) != NULL; /* RACE d */
    n += strstr(e, "lo") != NULL;        /* RACE e */
    strncpy(own, f, 8);                  /* RACE f */
    strcat(g, "x");                      /* RACE g */
    strncat(h, "x", 1);                  /* RACE h */
    own[0] = 0, strncat(own, i, 5);      /* RACE i */
    n += strcasestr("xxabcxx", j) != 0;  /* RACE j */
    n += strcasestr(k, "BC") != NULL;    /* RACE k */
    n += strchrnul(l, 'c') - l;          /* RACE l */
    n += strpbrk(z, "c;") - z;           /* RACE z */
    n += rawmemchr(m, 'c') != NULL;      /* RACE m */
    n += memmem("hello", 5, o, 2) != 0;  /* RACE o */
    n += bcmp(q, p, 3);                  /* RACE q */
    n += bcmp(p, r, 3);                  /* RACE r */
    n += (long)strxfrm(s, "ab", 8);      /* RACE s */
    stpncpy(own, t, 4);                  /* RACE t */
    memccpy(own, u, 'c', 8);             /* RACE u */
    bcopy(v, own, 4);                    /* RACE v */
    bcopy(p, w, 4);                      /* RACE w */
    explicit_bzero(x, 4);                /* RACE x */
    strcpy(own, "text text");
    found = strtok_r(own, y, &place);    /* RACE y */
    found = strtok_r(ca, " ", &place);   /* RACE ca */
    found = strtok_r(cb, " ", &place);   /* RACE cb */
    found = da;
    strsep(&found, ",");                 /* RACE da */
    found = db;
    strsep(&found, ",");                 /* RACE db */
    strsep(&at, ",");                    /* RACE at */
    n += asprintf(&made, "%d", 5);       /* RACE made */
    return p;
}

static void *letters(void *p) {
    a[3] = 0;        /* RACE a */
    b[3] = 'd';      /* RACE b */
    c[3] = 0;        /* RACE c */
    d[2] = 0;        /* RACE d */
    e[4] = 'o';      /* RACE e */
    f[2] = 0;        /* RACE f */
    g[0] = 'g';      /* RACE g */
    h[0] = 'h';      /* RACE h */
    i[2] = 0;        /* RACE i */
    j[2] = 0;        /* RACE j */
    k[4] = 'c';      /* RACE k */
    l[2] = 'c';      /* RACE l */
    m[2] = 'c';      /* RACE m */
    z[2] = 'c';      /* RACE z */
    o[1] = 'o';      /* RACE o */
    q[2] = 'c';      /* RACE q */
    r[2] = 'c';      /* RACE r */
    n += s[2];       /* RACE s */
    t[2] = 0;        /* RACE t */
    u[2] = 'c';      /* RACE u */
    v[3] = 'd';      /* RACE v */
    n += w[3];       /* RACE w */
    n += x[3];       /* RACE x */
    y[1] = 0;        /* RACE y */
    ca[1] = 'b';     /* RACE ca */
    n += cb[2];      /* RACE cb */
    da[1] = 'b';     /* RACE da */
    n += db[2];      /* RACE db */
    n += at != NULL; /* RACE at */
    n += made != 0;  /* RACE made */
    /* These letters lie behind, and nobody goes there. */
    b[4] = e[5] = k[5] = l[3] = m[3] = o[2] = q[3] = r[3] = u[3] = v[4] = x[4] = z[3] = 0;
    n += s[3] + w[4];
    return p;
}

int main(void) {
    pthread_t id[2];
    pthread_create(&id[0], NULL, calls, "abcd");
    pthread_create(&id[1], NULL, letters, NULL);
    for (int k = 0; k < 2; k++) pthread_join(id[k], NULL);
    free(made);
    puts("done");
    return 0;
}
