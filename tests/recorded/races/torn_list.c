/* A list and its length, without a lock: who counts between the two steps finds another length. */
#include <assert.h>
#include <pthread.h>
#include <stddef.h>
struct item { struct item *next; };
static struct item item, *list;
static size_t length;
static void *push(void *none) {
    list = &item;
    length = 1;
    return none;
}
static void *count(void *none) {
    size_t found = list != NULL;
    size_t expected = length;
    assert(found == expected);
    return none;
}
int main(void) {
    pthread_t a, b;
    pthread_create(&a, NULL, push, NULL);
    pthread_create(&b, NULL, count, NULL);
    pthread_join(a, NULL);
    pthread_join(b, NULL);
}
