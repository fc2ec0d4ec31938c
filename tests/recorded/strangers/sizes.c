/* An access of each size goes as far as its last byte, and no further: plain, at an odd place, volatile and atomic. */
#include <pthread.h>
#include <stdatomic.h>
#include <stdint.h>
#include <stdio.h>
#include <string.h>
typedef int __attribute__((vector_size(16))) four;
static _Alignas(16) unsigned char a[32], b[32], c[32], d[32], e[32], f[32], g[32], h[32], i[32], j[32], k[32], l[32],
    m[32];
static _Alignas(16) unsigned char o[32], q[32], r[32], s[32], t[32], u[32], v[32], w[32];
static __thread volatile long n;
static four ones = {1, 1, 1, 1};
static __thread volatile four own;
struct __attribute__((packed)) odd {
    char first;
    uint16_t two;
    uint32_t four;
    uint64_t eight;
};
struct bits {
    unsigned low : 9, high : 20;
};
struct nine {
    char part[9];
};
#define AS(type, at) (*(type *)(at))

static void *wide(void *p) {
    AS(uint16_t, a) = 1;                                                            /* RACE a */
    AS(uint32_t, b) = 1;                                                            /* RACE b */
    AS(uint64_t, c) = 1;                                                            /* RACE c */
    AS(four, d) = ones;                                                             /* RACE d */
    n += AS(uint16_t, e);                                                           /* RACE e */
    n += AS(uint32_t, f);                                                           /* RACE f */
    n += (long)AS(uint64_t, g);                                                     /* RACE g */
    own = AS(four, h);                                                              /* RACE h */
    AS(struct odd, i).two = 1;                                                      /* RACE i */
    AS(struct odd, i).eight = 1;                                                    /* RACE i */
    n += AS(struct odd, j).four;                                                    /* RACE j */
    n += (long)AS(struct odd, j).eight;                                             /* RACE j */
    AS(volatile uint32_t, k) = 1;                                                   /* RACE k */
    n += (long)AS(volatile uint64_t, l);                                            /* RACE l */
    atomic_store((_Atomic uint16_t *)m, 1);                                         /* RACE m */
    atomic_store((_Atomic uint64_t *)o, 1);                                         /* RACE o */
    n += (long)atomic_load((_Atomic uint32_t *)q);                                  /* RACE q */
    atomic_fetch_add((_Atomic uint32_t *)r, 1);                                     /* RACE r */
    atomic_exchange((_Atomic uint64_t *)s, 1);                                      /* RACE s */
    AS(uint32_t, t)++;                                                              /* RACE t */
    AS(struct bits, u).high = 5;                                                    /* RACE u */
    AS(struct nine, v) = *(struct nine *)p;                                         /* RACE v */
    n += atomic_compare_exchange_strong((_Atomic uint32_t *)w, (uint32_t[]){0}, 1); /* RACE w */
    return p;
}

static void *last(void *p) {
    n += a[1];         /* RACE a */
    n += b[3];         /* RACE b */
    n += c[7];         /* RACE c */
    n += d[15];        /* RACE d */
    e[1] = 0;          /* RACE e */
    f[3] = 0;          /* RACE f */
    g[7] = 0;          /* RACE g */
    h[15] = 0;         /* RACE h */
    n += i[2] + i[14]; /* RACE i */
    j[6] = j[14] = 0;  /* RACE j */
    n += k[3];         /* RACE k */
    l[7] = 0;          /* RACE l */
    n += m[1];         /* RACE m */
    n += o[7];         /* RACE o */
    q[3] = 0;          /* RACE q */
    n += r[3];         /* RACE r */
    n += s[7];         /* RACE s */
    n += t[3];         /* RACE t */
    n += u[3];         /* RACE u */
    n += v[8];         /* RACE v */
    n += w[3];         /* RACE w */
    return p;
}

/* The byte behind is another one. */
static void *behind(void *p) {
    e[2] = f[4] = g[8] = h[16] = j[15] = l[8] = q[4] = a[2] = b[4] = c[8] = d[16] = i[15] = k[4] = m[2] = 1;
    o[8] = r[4] = s[8] = t[4] = u[4] = v[9] = w[4] = 1;
    return p;
}

int main(void) {
    pthread_t x[3];
    struct nine some = {"bytes"};
    pthread_create(&x[0], NULL, wide, &some);
    pthread_create(&x[1], NULL, last, NULL);
    pthread_create(&x[2], NULL, behind, NULL);
    for (int y = 0; y < 3; y++) pthread_join(x[y], NULL);
    puts("done");
    return 0;
}
