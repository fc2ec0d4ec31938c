/* Keys, cleanup handlers, exits of threads, values that are joined, a join by a sibling. */
#include <pthread.h>
#include <semaphore.h>
#include <stdint.h>
#include <stdio.h>
#include <stdlib.h>
#include <unistd.h>
static pthread_key_t key, again;
static int ended, cleaned, by_sibling, values;
static pthread_t first;
static sem_t begun;
static void at_end(void *p) {
    ended++;
    free(p);
}
static void once_more(void *p) {
    if (p != (void *)3) pthread_setspecific(again, (char *)p + 1);
    else ended += 10;
}
static void clean(void *p) { cleaned += *(int *)p; }
static void *work(void *p) {
    int n = 4;
    pthread_cleanup_push(clean, &n);
    pthread_setspecific(key, malloc(5)), pthread_setspecific(again, (void *)1);
    by_sibling = 1;
    pthread_exit(p);
    pthread_cleanup_pop(0);
}
static void *joins(void *p) {
    void *v;
    pthread_join(first, &v);
    by_sibling++;
    return v;
}
static void *sleeps(void *p) {
    int n = 8;
    pthread_cleanup_push(clean, &n);
    sem_post(&begun);
    for (;;) sleep(10);
    pthread_cleanup_pop(0);
    return p;
}
int main(void) {
    pthread_t second, third;
    void *v;
    pthread_key_create(&key, at_end), pthread_key_create(&again, once_more);
    pthread_create(&first, NULL, work, (void *)7), pthread_create(&second, NULL, joins, NULL);
    pthread_join(second, &v);
    values = (int)(intptr_t)v;
    sem_init(&begun, 0, 0);
    pthread_create(&third, NULL, sleeps, NULL);
    sem_wait(&begun);
    pthread_cancel(third), pthread_join(third, &v);
    printf("%d %d %d %d %d\n", ended, cleaned, by_sibling, values, v == PTHREAD_CANCELED);
    return 0;
}
