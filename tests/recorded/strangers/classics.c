/* Philosophers that try, readers and writers by semaphores, a bounded buffer. */
#include <pthread.h>
#include <sched.h>
#include <semaphore.h>
#include <stdio.h>
#include <stdlib.h>
#define N 3
static pthread_mutex_t fork_[N];
static int eaten[N], plate[N];
static sem_t readers_m, room, empty, full, buffer_m;
static int readers, book, seen[N];
static int buffer[4], in, out, total;
static void *philosopher(void *p) {
    long k = (long)p;
    for (int i = 0; i < 3;) {
        pthread_mutex_lock(&fork_[k]);
        if (pthread_mutex_trylock(&fork_[(k + 1) % N])) {
            pthread_mutex_unlock(&fork_[k]);
            sched_yield();
            continue;
        }
        plate[k]++, plate[(k + 1) % N]++, eaten[k]++, i++;
        pthread_mutex_unlock(&fork_[(k + 1) % N]), pthread_mutex_unlock(&fork_[k]);
    }
    for (int i = 0; i < 3; i++) {
        sem_wait(&readers_m);
        if (++readers == 1) sem_wait(&room);
        sem_post(&readers_m);
        seen[k] += book;
        sem_wait(&readers_m);
        if (--readers == 0) sem_post(&room);
        sem_post(&readers_m);
        sem_wait(&room), book++, sem_post(&room);
    }
    return NULL;
}
static void *produces(void *p) {
    for (int k = 0; k < 10; k++) {
        sem_wait(&empty), sem_wait(&buffer_m);
        buffer[in++ % 4] = k;
        sem_post(&buffer_m), sem_post(&full);
    }
    return p;
}
static void *consumes(void *p) {
    for (int k = 0; k < 10; k++) {
        sem_wait(&full), sem_wait(&buffer_m);
        total += buffer[out++ % 4];
        sem_post(&buffer_m), sem_post(&empty);
    }
    return p;
}
int main(void) {
    pthread_t t[N + 4];
    for (int k = 0; k < N; k++) pthread_mutex_init(&fork_[k], NULL);
    sem_init(&readers_m, 0, 1), sem_init(&room, 0, 1), sem_init(&empty, 0, 4), sem_init(&full, 0, 0),
        sem_init(&buffer_m, 0, 1);
    for (long k = 0; k < N; k++) pthread_create(&t[k], NULL, philosopher, (void *)k);
    for (int k = 0; k < 2; k++)
        pthread_create(&t[N + k], NULL, produces, NULL), pthread_create(&t[N + 2 + k], NULL, consumes, NULL);
    for (int k = 0; k < N + 4; k++) pthread_join(t[k], NULL);
    printf("%d %d %d\n", eaten[0] + eaten[1] + eaten[2], book, total);
    return 0;
}
