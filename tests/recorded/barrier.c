/* Two threads meet at a barrier between a write and a write. No run has the second write before the first thread came. */
#include <pthread.h>
static pthread_barrier_t meeting;
static int x;
static void *first(void *none) {
    x = 1;
    pthread_barrier_wait(&meeting);
    return none;
}
static void *second(void *none) {
    pthread_barrier_wait(&meeting);
    x = 2;
    return none;
}
int main(void) {
    pthread_t one, other;
    pthread_barrier_init(&meeting, NULL, 2);
    pthread_create(&one, NULL, first, NULL), pthread_create(&other, NULL, second, NULL);
    pthread_join(one, NULL), pthread_join(other, NULL);
    return x != 2;
}
