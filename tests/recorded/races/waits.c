/* The reader waits for a relaxed flag, so in C the two accesses of `data` race; and no run of whole instructions has them side by side. */
#include <pthread.h>
#include <stdatomic.h>
static volatile int data, seen;
static atomic_int flag;
static void *writer(void *none) {
    data = 1;
    atomic_store_explicit(&flag, 1, memory_order_relaxed);
    return none;
}
static void *reader(void *none) {
    while (!atomic_load_explicit(&flag, memory_order_relaxed)) {}
    seen = data;
    return none;
}
int main(void) {
    pthread_t a, b;
    pthread_create(&a, NULL, writer, NULL); pthread_create(&b, NULL, reader, NULL);
    pthread_join(a, NULL); pthread_join(b, NULL);
    return 0;
}
