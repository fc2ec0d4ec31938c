/* One thread looks at a block while the other gives it back: a race where a free counts as a write. */
#include <pthread.h>
#include <stdlib.h>
static int *block;
static void *look(void *none) {
    volatile int seen = *block;
    (void)seen;
    return none;
}
static void *give_back(void *none) {
    free(block);
    return none;
}
int main(void) {
    pthread_t one, other;
    block = malloc(sizeof *block);
    *block = 1;
    pthread_create(&one, NULL, look, NULL);
    pthread_create(&other, NULL, give_back, NULL);
    pthread_join(one, NULL);
    pthread_join(other, NULL);
    return 0;
}
