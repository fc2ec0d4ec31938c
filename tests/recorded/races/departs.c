/* How often the lock is taken hangs on the address of a block, and that address on a block before it, which is larger if
 * the environment has SIZE_BEFORE: a run with the larger one has to depart from a schedule of this one. */
#include <pthread.h>
#include <stdint.h>
#include <stdlib.h>
static pthread_mutex_t m = PTHREAD_MUTEX_INITIALIZER; static int hits, locked; static uintptr_t place;
static void *work(void *none) {
    for (uintptr_t k = 0; k < 2 + (place >> 4 & 7); k++) {
        pthread_mutex_lock(&m); locked++; pthread_mutex_unlock(&m);
    }
    hits++;
    return none;
}
int main(void) {
    pthread_t a, b;
    char *before = malloc(getenv("SIZE_BEFORE") ? 72 : 24);
    place = (uintptr_t)malloc(100);
    pthread_create(&a, NULL, work, NULL); pthread_create(&b, NULL, work, NULL);
    pthread_join(a, NULL); pthread_join(b, NULL);
    return before == NULL || hits == 0;
}
