/* A thread takes a lock that it holds. */
#include <pthread.h>
static pthread_mutex_t a = PTHREAD_MUTEX_INITIALIZER;
static int count;
static void *twice(void *arg) {
    pthread_mutex_lock(&a);
    pthread_mutex_lock(&a);
    count++;
    return arg;
}
int main(void) {
    pthread_t t;
    pthread_create(&t, NULL, twice, NULL);
    pthread_join(t, NULL);
    return count;
}
