/* Bit-fields, unions, packed and unaligned members, vectors, arrays on the stack. */
#include <alloca.h>
#include <pthread.h>
#include <stdint.h>
#include <stdio.h>
#include <string.h>
struct bits {
    unsigned a : 3, b : 5;
    unsigned : 0;
    unsigned c : 4;
};
union both {
    uint64_t whole;
    uint8_t bytes[8];
};
struct __attribute__((packed)) tight {
    char c;
    int n;
    char d;
};
typedef int v8 __attribute__((vector_size(32)));
struct large {
    long words[20];
};
static struct bits f;
static union both u;
static struct tight t1;
static v8 vector, vector2;
static struct large big, big2;
static char buffer[200];
static int *shared_vla;
static pthread_barrier_t b;
static long out[2];
static void *one(void *p) {
    f.a = 1; /* RACE a */
    f.c = 2;
    u.whole = 5; /* RACE b */
    t1.n = 7;    /* RACE c */
    t1.c = 1;
    vector = vector2 + 1;        /* RACE d */
    big = big2;                  /* RACE e */
    memset(buffer + 50, 1, 100); /* RACE f */
    pthread_barrier_wait(&b);
    shared_vla[3] = 1; /* RACE g */
    pthread_barrier_wait(&b);
    return p;
}
static void *two(void *p) {
    int n = *(int *)p;
    int vla[n];
    char *onstack = alloca((size_t)n);
    for (int k = 0; k < n; k++) vla[k] = k, onstack[k] = (char)k;
    f.b = 3;              /* RACE a */
    out[0] += u.bytes[3]; /* RACE b */
    out[0] += t1.n;       /* RACE c */
    t1.d = 1;
    out[0] += vector[7];     /* RACE d */
    out[0] += big.words[13]; /* RACE e */
    buffer[149] = 3;         /* RACE f */
    buffer[150] = 3;
    shared_vla = vla;
    pthread_barrier_wait(&b);
    vla[3] = 2; /* RACE g */
    pthread_barrier_wait(&b);
    out[1] += vla[3] + onstack[1];
    return NULL;
}
int main(void) {
    pthread_t t[2];
    int n = 10;
    pthread_barrier_init(&b, NULL, 2);
    pthread_create(&t[0], NULL, one, NULL), pthread_create(&t[1], NULL, two, &n);
    for (int k = 0; k < 2; k++) pthread_join(t[k], NULL);
    printf("%d\n", (int)f.a + (int)f.b + (int)f.c);
    return 0;
}
