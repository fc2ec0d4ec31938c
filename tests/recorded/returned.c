// Threads use a variable of a function that returns. `early` returns while its thread may still use it; `late` waits
// for the last use, and `joining` for the thread.
#include <pthread.h>
#include <semaphore.h>

static sem_t used, done;

static void *count(void *p) {
    int *number = p;
    ++*number;
    sem_post(&used);
    ++*number; // RACE
    sem_post(&done);
    return NULL;
}

__attribute__((noinline)) static pthread_t early(void) {
    pthread_t t;
    int number = 0;
    pthread_create(&t, NULL, count, &number);
    sem_wait(&used);
    return t; // RACE
}

__attribute__((noinline)) static pthread_t late(void) {
    pthread_t t;
    int number = 0;
    pthread_create(&t, NULL, count, &number);
    sem_wait(&used);
    sem_wait(&done);
    return t;
}

__attribute__((noinline)) static void joining(void) {
    pthread_t t;
    int number = 0;
    pthread_create(&t, NULL, count, &number);
    pthread_join(t, NULL);
}

int main(void) {
    sem_init(&used, 0, 0);
    sem_init(&done, 0, 0);
    pthread_t t = early();
    sem_wait(&done);
    pthread_join(t, NULL);
    pthread_join(late(), NULL);
    joining();
    return 0;
}
