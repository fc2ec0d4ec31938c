/* Two halves that belong together: a reader between both writes, or a writer between both reads, sees them differ. */
#include <assert.h>
#include <pthread.h>
static struct { int high, low; } v;
static void *writer(void *none) {
    v.high = 1;
    v.low = 1;
    return none;
}
static void *reader(void *none) {
    int high = v.high;
    int low = v.low;
    assert(high == low);
    return none;
}
int main(void) {
    pthread_t a, b;
    pthread_create(&a, NULL, writer, NULL);
    pthread_create(&b, NULL, reader, NULL);
    pthread_join(a, NULL);
    pthread_join(b, NULL);
}
