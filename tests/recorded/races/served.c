/* A race, and then a server that ends when a client opened the named pipe in its first argument. */
#include <fcntl.h>
#include <pthread.h>
#include <unistd.h>
static int hits;
static void *count(void *none) {
    hits++;
    return none;
}
int main(int n, char **args) {
    pthread_t a, b;
    pthread_create(&a, NULL, count, NULL);
    pthread_create(&b, NULL, count, NULL);
    pthread_join(a, NULL);
    pthread_join(b, NULL);
    return n < 2 || close(open(args[1], O_RDONLY));
}
