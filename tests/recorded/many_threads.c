/* 600 threads that come and go, some at a time: each uses what all share under a lock, and every second one is joined. */
#include <pthread.h>
#include <semaphore.h>
enum { THREADS = 600, AT_ONCE = 5 };
static pthread_mutex_t m = PTHREAD_MUTEX_INITIALIZER;
static int shared;
static sem_t room;
static void *work(void *p) {
    pthread_mutex_lock(&m);
    shared++;
    pthread_mutex_unlock(&m);
    sem_post(&room);
    return p;
}
int main(void) {
    pthread_t t;
    sem_init(&room, 0, AT_ONCE);
    for (int k = 0; k < THREADS; k++) {
        sem_wait(&room);
        if (pthread_create(&t, NULL, work, NULL)) return 1;
        if (k % 2) pthread_join(t, NULL);
        else pthread_detach(t);
    }
    for (int k = 0; k < AT_ONCE; k++) sem_wait(&room);
    return shared != THREADS;
}
