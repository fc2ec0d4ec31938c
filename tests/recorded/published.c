// A block that is published without a lock: the race of the pointer orders the accesses of the block.
#include <pthread.h>
#include <stdio.h>
#include <stdlib.h>

static int *shared, total;

static void *writer(void *none) {
    int *made = malloc(sizeof *made);
    *made = 42;
    shared = made;
    return none;
}

static void *reader(void *none) {
    while (shared == NULL)
        ;
    total = *shared;
    return none;
}

int main(void) {
    pthread_t one, other;
    pthread_create(&one, NULL, writer, NULL);
    pthread_create(&other, NULL, reader, NULL);
    pthread_join(one, NULL);
    pthread_join(other, NULL);
    free(shared);
    return printf("%d\n", total) < 0;
}
