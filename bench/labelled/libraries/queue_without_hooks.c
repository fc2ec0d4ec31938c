/* A library of queues for one item each, with a mutex and a condition variable. It is compiled without hooks. */
#include <pthread.h>
static pthread_mutex_t mutex = PTHREAD_MUTEX_INITIALIZER;
static pthread_cond_t changed = PTHREAD_COND_INITIALIZER;
static void *items[2];

static void put(int which, void *item) {
    pthread_mutex_lock(&mutex);
    items[which] = item;
    pthread_cond_broadcast(&changed);
    pthread_mutex_unlock(&mutex);
}

static void *get(int which) {
    pthread_mutex_lock(&mutex);
    while (!items[which]) pthread_cond_wait(&changed, &mutex);
    void *item = items[which];
    items[which] = NULL;
    pthread_mutex_unlock(&mutex);
    return item;
}

void queue_put(void *item) { put(0, item); }
void *queue_get(void) { return get(0); }
void answer_put(void *item) { put(1, item); }
void *answer_get(void) { return get(1); }
