/* A reader keeps the name that another thread frees. Nothing is seen of it outside. */
#include <pthread.h>
#include <stdlib.h>
#include <string.h>
static char *name;
static pthread_mutex_t m = PTHREAD_MUTEX_INITIALIZER;
static void *reader(void *none) {
    pthread_mutex_lock(&m);
    char *mine = name;
    pthread_mutex_unlock(&m);
    return mine[0] == 'x' ? name : none;
}
static void *renamer(void *none) {
    char *fresh = strdup("second");
    pthread_mutex_lock(&m);
    char *old = name;
    name = fresh;
    pthread_mutex_unlock(&m);
    free(old);
    return none;
}
int main(void) {
    name = strdup("first");
    pthread_t a, b;
    pthread_create(&a, NULL, reader, NULL);
    pthread_create(&b, NULL, renamer, NULL);
    pthread_join(a, NULL);
    pthread_join(b, NULL);
}
