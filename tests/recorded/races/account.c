/* A transfer without a lock: who adds up both accounts between the two steps misses the money. */
#include <assert.h>
#include <pthread.h>
static int from = 10, to;
static void *transfer(void *none) {
    from -= 5;
    to += 5;
    return none;
}
static void *add_up(void *none) {
    int sum = from;
    sum += to;
    assert(sum == 10);
    return none;
}
int main(void) {
    pthread_t a, b;
    pthread_create(&a, NULL, transfer, NULL);
    pthread_create(&b, NULL, add_up, NULL);
    pthread_join(a, NULL);
    pthread_join(b, NULL);
}
