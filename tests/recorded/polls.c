/* A thread polls an atomic flag, and then tries a mutex again and again. A race comes after its loops. */
#include <pthread.h>
#include <stdatomic.h>
#include <stdio.h>

static atomic_int go;
static int hits;
static volatile int work;
static pthread_mutex_t mutex = PTHREAD_MUTEX_INITIALIZER;

static void *waiter(void *unused) {
    while (!atomic_load(&go)) {}
    while (pthread_mutex_trylock(&mutex)) {}
    pthread_mutex_unlock(&mutex);
    hits++; /* RACE */
    return unused;
}

static void *starter(void *unused) {
    pthread_mutex_lock(&mutex);
    for (int k = 0; k < 500; k++) work++;
    atomic_store(&go, 1);
    for (int k = 0; k < 500; k++) work++;
    pthread_mutex_unlock(&mutex);
    hits++; /* RACE */
    return unused;
}

int main(void) {
    pthread_t first, second;
    if (pthread_create(&first, NULL, waiter, NULL) || pthread_create(&second, NULL, starter, NULL)) return 1;
    pthread_join(first, NULL);
    pthread_join(second, NULL);
    printf("%d\n", hits + work);
    return 0;
}
