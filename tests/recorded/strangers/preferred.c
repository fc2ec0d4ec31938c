/* Reader-writer locks that prefer writers, a rank of locks, and blocks that one thread makes and another frees. */
#define _GNU_SOURCE
#include <pthread.h>
#include <sched.h>
#include <stdio.h>
#include <stdlib.h>
#include <string.h>
static pthread_rwlock_t l;
static char *text;
static int writes;
static volatile int reads_done;
static void *reads(void *p) {
    long sum = 0;
    for (int k = 0; k < 6; k++) {
        pthread_rwlock_rdlock(&l);
        sum += text ? (long)strlen(text) * 0 + 1 : 0;
        pthread_rwlock_unlock(&l);
        reads_done++; /* RACE */
        sched_yield();
    }
    *(long *)p = sum;
    return NULL;
}
static void *replaces(void *p) {
    for (int k = 0; k < 4; k++) {
        char *made = malloc(32), *old;
        snprintf(made, 32, "the text of writer %d", k);
        pthread_rwlock_wrlock(&l);
        old = text, text = made, writes++;
        pthread_rwlock_unlock(&l);
        free(old);
    }
    return p;
}
int main(void) {
    pthread_t t[4];
    long sums[2] = {0, 0};
    pthread_rwlockattr_t a;
    pthread_rwlockattr_init(&a);
    pthread_rwlockattr_setkind_np(&a, PTHREAD_RWLOCK_PREFER_WRITER_NONRECURSIVE_NP);
    pthread_rwlock_init(&l, &a);
    for (int k = 0; k < 2; k++) pthread_create(&t[k], NULL, reads, &sums[k]);
    for (int k = 2; k < 4; k++) pthread_create(&t[k], NULL, replaces, NULL);
    for (int k = 0; k < 4; k++) pthread_join(t[k], NULL);
    printf("%d %d\n", writes, sums[0] + sums[1] <= 12);
    free(text);
    return 0;
}
