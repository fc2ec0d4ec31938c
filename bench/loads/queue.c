/* Two threads put N items each into a queue under a mutex, and two take them out. Without a race. */
#include <pthread.h>
#include <stdio.h>
#include <stdlib.h>

enum { ROOM = 64, PRODUCERS = 2, THREADS = 4 };
static long items, queue[ROOM], total;
static int head, tail, used, ended;
static pthread_mutex_t mutex = PTHREAD_MUTEX_INITIALIZER;
static pthread_cond_t has_items = PTHREAD_COND_INITIALIZER, has_room = PTHREAD_COND_INITIALIZER;

static void *produce(void *number) {
    for (long i = 0; i < items; i++) {
        pthread_mutex_lock(&mutex);
        while (used == ROOM) pthread_cond_wait(&has_room, &mutex);
        queue[tail] = i ^ (long)number;
        tail = (tail + 1) % ROOM, used++;
        pthread_cond_signal(&has_items);
        pthread_mutex_unlock(&mutex);
    }
    return NULL;
}

static void *consume(void *unused) {
    long sum = 0;
    pthread_mutex_lock(&mutex);
    for (;;) {
        while (!used && !ended) pthread_cond_wait(&has_items, &mutex);
        if (!used) break;
        sum += queue[head];
        head = (head + 1) % ROOM, used--;
        pthread_cond_signal(&has_room);
        pthread_mutex_unlock(&mutex);
        pthread_mutex_lock(&mutex);
    }
    total += sum;
    pthread_mutex_unlock(&mutex);
    return unused;
}

int main(int count, char **arguments) {
    items = count > 1 ? atol(arguments[1]) : 3000;
    pthread_t threads[THREADS];
    for (long k = 0; k < THREADS; k++)
        if (pthread_create(&threads[k], NULL, k < PRODUCERS ? produce : consume, (void *)k)) return 1;
    for (int k = 0; k < PRODUCERS; k++) pthread_join(threads[k], NULL);
    pthread_mutex_lock(&mutex);
    ended = 1;
    pthread_cond_broadcast(&has_items);
    pthread_mutex_unlock(&mutex);
    for (int k = PRODUCERS; k < THREADS; k++) pthread_join(threads[k], NULL);
    printf("%ld\n", total);
    return 0;
}
