/* Functions of numbers that write a second answer through a pointer. */
#define _GNU_SOURCE
#include <math.h>
#include <pthread.h>
#include <stdio.h>
static double sine, cosine, guarded[2];
static float small[2];
static long double large[2], whole;
static int exponent, quotient, sign;
static volatile double five = 5.25;
static pthread_mutex_t m = PTHREAD_MUTEX_INITIALIZER;
static __thread volatile double n;

static void guards(void) {
    pthread_mutex_lock(&m);
    sincos(five, &guarded[0], &guarded[1]);
    n += guarded[0] + guarded[1];
    pthread_mutex_unlock(&m);
}

static void *fills(void *p) {
    sincos(five, &sine, &cosine);           /* RACE a */
    sincosf((float)five, small, small + 1); /* RACE b */
    sincosl(five, large, large + 1);        /* RACE c */
    n += (double)frexpl(five, &exponent);   /* RACE d */
    n += (double)modfl(five, &whole);       /* RACE e */
    n += remquo(five, 2, &quotient);        /* RACE f */
    n += lgamma_r(five, &sign);             /* RACE g */
    guards();
    return p;
}

static void *looks(void *p) {
    n += sine;                /* RACE a */
    n += cosine;              /* RACE a */
    n += small[1];            /* RACE b */
    n += ((char *)large)[17]; /* RACE c */
    n += exponent;            /* RACE d */
    n += ((char *)&whole)[1]; /* RACE e */
    n += quotient;            /* RACE f */
    n += sign;                /* RACE g */
    guards();
    return p;
}

int main(void) {
    pthread_t t[2];
    pthread_create(&t[0], NULL, fills, NULL), pthread_create(&t[1], NULL, looks, NULL);
    for (int k = 0; k < 2; k++) pthread_join(t[k], NULL);
    printf("%.3f %.3f %d %d %d\n", sine, cosine, exponent, quotient & 7, sign);
    return 0;
}
