/* A condition variable of C11. The racy twin reads the data without the mutex or the wait. */
#include "pair.h"
#include <threads.h>
static mtx_t mutex;
static cnd_t changed;
static int ready, data, seen;

static int sets(void *none) {
    (void)none;
    mtx_lock(&mutex);
    data = 1; /* RACE */
    ready = 1;
    cnd_signal(&changed);
    mtx_unlock(&mutex);
    return 0;
}

static int waits(void *none) {
    (void)none;
#ifndef RACY
    mtx_lock(&mutex);
    while (!ready) cnd_wait(&changed, &mutex);
    mtx_unlock(&mutex);
#endif
    seen = data; /* RACE */
    return 0;
}

int main(void) {
    thrd_t threads[2];
    mtx_init(&mutex, mtx_plain), cnd_init(&changed);
    thrd_create(&threads[0], sets, NULL), thrd_create(&threads[1], waits, NULL);
    for (int k = 0; k < 2; k++) thrd_join(threads[k], NULL);
    return seen == 9;
}
