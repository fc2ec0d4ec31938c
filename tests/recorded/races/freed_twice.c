/* Both threads find the block and free it. */
#include <pthread.h>
#include <stdlib.h>
static char *buffer;
static void *closer(void *none) {
    if (buffer) {
        free(buffer);
        buffer = NULL;
    }
    return none;
}
int main(void) {
    buffer = malloc(100);
    pthread_t a, b;
    pthread_create(&a, NULL, closer, NULL);
    pthread_create(&b, NULL, closer, NULL);
    pthread_join(a, NULL);
    pthread_join(b, NULL);
}
