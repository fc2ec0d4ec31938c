/* A thread is cancelled, and its cleanup handler runs. The racy maker reads before the join. */
#include "pair.h"
static int cleaned;
static sem_t there;

static void cleans(void *none) {
    (void)none;
    cleaned = 1; /* RACE */
}

THREAD(waits) {
    pthread_cleanup_push(cleans, NULL);
    sem_post(&there);
    for (;;) usleep(1000);
    pthread_cleanup_pop(0);
    return argument;
}

int main(void) {
    sem_init(&there, 0, 0);
    pthread_create(&first_thread, NULL, waits, NULL);
    sem_wait(&there);
    pthread_cancel(first_thread);
    IF_CLEAN(pthread_join(first_thread, NULL));
    int seen = cleaned; /* RACE */
    IF_RACY(pthread_join(first_thread, NULL));
    return seen == 9;
}
