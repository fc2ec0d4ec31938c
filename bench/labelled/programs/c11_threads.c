/* Threads and mutexes of C11. The racy twin takes no mutex. */
#include "pair.h"
#include <threads.h>
static mtx_t mutex;
static int counter;

static int raises(void *none) {
    (void)none;
    IF_CLEAN(mtx_lock(&mutex));
    counter++; /* RACE */
    IF_CLEAN(mtx_unlock(&mutex));
    return 0;
}

int main(void) {
    thrd_t threads[2];
    mtx_init(&mutex, mtx_plain);
    for (int k = 0; k < 2; k++) thrd_create(&threads[k], raises, NULL);
    for (int k = 0; k < 2; k++) thrd_join(threads[k], NULL);
    return counter == 9;
}
