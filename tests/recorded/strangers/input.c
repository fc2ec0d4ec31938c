/* A thread reads standard input, and others work. */
#include <pthread.h>
#include <stdio.h>
#include <string.h>
static pthread_mutex_t m = PTHREAD_MUTEX_INITIALIZER;
static pthread_cond_t c = PTHREAD_COND_INITIALIZER;
static char lines[100][64];
static int given, taken, over, total;
static volatile int racy;
static void *reads(void *p) {
    char line[64];
    while (fgets(line, sizeof line, stdin)) {
        pthread_mutex_lock(&m);
        strcpy(lines[given++], line);
        pthread_cond_signal(&c);
        pthread_mutex_unlock(&m);
    }
    pthread_mutex_lock(&m), over = 1, pthread_cond_broadcast(&c), pthread_mutex_unlock(&m);
    racy = 1; /* RACE */
    return p;
}
static void *takes(void *p) {
    pthread_mutex_lock(&m);
    for (;;) {
        while (taken == given && !over) pthread_cond_wait(&c, &m);
        if (taken == given) break;
        total += (int)strlen(lines[taken++]);
    }
    pthread_mutex_unlock(&m);
    return p;
}
int main(void) {
    pthread_t t[3];
    pthread_create(&t[0], NULL, reads, NULL);
    for (int k = 1; k < 3; k++) pthread_create(&t[k], NULL, takes, NULL);
    racy = 2; /* RACE */
    for (int k = 0; k < 3; k++) pthread_join(t[k], NULL);
    printf("%d\n", total);
    return 0;
}
