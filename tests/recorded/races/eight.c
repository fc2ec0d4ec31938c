/* Eight races of two threads; nobody looks at what they wrote. */
#include <pthread.h>
int a, b, c, d, e, f, g, h;
static void *one(void *none) {
    a = 1;
    b = 1;
    c = 1;
    d = 1;
    e = 1;
    f = 1;
    g = 1;
    h = 1;
    return none;
}
static void *other(void *none) {
    a = 2;
    b = 2;
    c = 2;
    d = 2;
    e = 2;
    f = 2;
    g = 2;
    h = 2;
    return none;
}
int main(void) {
    pthread_t s, t;
    pthread_create(&s, NULL, one, NULL);
    pthread_create(&t, NULL, other, NULL);
    pthread_join(s, NULL);
    pthread_join(t, NULL);
}
