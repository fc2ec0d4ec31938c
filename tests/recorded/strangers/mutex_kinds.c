/* Mutexes of each kind: errors, recursion, inheritance, ceiling, adaptive. */
#define _GNU_SOURCE
#include <errno.h>
#include <pthread.h>
#include <stdio.h>
static pthread_mutex_t m[5];
static int n[5], faults;
static void *work(void *p) {
    for (int i = 0; i < 3; i++)
        for (int k = 0; k < 5; k++) {
            if (pthread_mutex_lock(&m[k])) {
                faults++;
                continue;
            }
            if (k == 1 && pthread_mutex_lock(&m[k]) != EDEADLK) faults += 100;
            if (k == 2) {
                if (pthread_mutex_lock(&m[k]) || pthread_mutex_trylock(&m[k])) faults += 1000;
                n[k]++;
                pthread_mutex_unlock(&m[k]), pthread_mutex_unlock(&m[k]);
            }
            n[k]++;
            pthread_mutex_unlock(&m[k]);
        }
    return p;
}
int main(void) {
    pthread_t t[2];
    for (int k = 0; k < 5; k++) {
        pthread_mutexattr_t a;
        pthread_mutexattr_init(&a);
        if (k == 1) pthread_mutexattr_settype(&a, PTHREAD_MUTEX_ERRORCHECK);
        if (k == 2) pthread_mutexattr_settype(&a, PTHREAD_MUTEX_RECURSIVE);
        if (k == 3) pthread_mutexattr_setprotocol(&a, PTHREAD_PRIO_INHERIT);
        if (k == 4) pthread_mutexattr_settype(&a, PTHREAD_MUTEX_ADAPTIVE_NP);
        pthread_mutex_init(&m[k], &a);
    }
    for (int k = 0; k < 2; k++) pthread_create(&t[k], NULL, work, NULL);
    for (int k = 0; k < 2; k++) pthread_join(t[k], NULL);
    if (pthread_mutex_unlock(&m[1]) != EPERM) faults += 10000;
    printf("%d %d %d %d %d %d\n", n[0], n[1], n[2], n[3], n[4], faults);
    return 0;
}
