/* A semaphore that each thread posts itself after its wait is a lock: its sections have no order. So what lies before one
 * section and behind another one is a race. One that a thread posts for another one is an order. */
#include <pthread.h>
#include <semaphore.h>
#include <stdio.h>
static sem_t lock, given;
static int racy, first, second, both, before;

static void *one(void *p) {
    racy = 1; /* RACE */
    sem_wait(&lock), first++, both++, sem_post(&lock);
    before = 1;
    sem_post(&given);
    return p;
}

static void *other(void *p) {
    sem_wait(&lock), second++, sem_post(&lock);
    racy = 2; /* RACE */
    sem_wait(&given);
    before++;
    return p;
}

static void *third(void *p) {
    while (sem_trywait(&lock)) {}
    both++;
    sem_post(&lock);
    return p;
}

int main(void) {
    pthread_t t[3];
    sem_init(&lock, 0, 1), sem_init(&given, 0, 0);
    pthread_create(&t[0], NULL, one, NULL);
    pthread_create(&t[1], NULL, other, NULL);
    pthread_create(&t[2], NULL, third, NULL);
    for (int k = 0; k < 3; k++) pthread_join(t[k], NULL);
    printf("%d %d %d %d %d\n", first, second, both, before, racy > 0);
    return 0;
}
