/* Accesses whose values are known. A comment at the end of a line has them: those of the reads and writes of the line,
 * in their order; `none` for an access without a value, and `block+N` for a pointer into a block. */
#include <pthread.h>
#include <stdatomic.h>
#include <stdint.h>
#include <stdlib.h>
#include <string.h>
#include <unistd.h>

struct wide {
    uint64_t parts[3];
};
static uint8_t byte;
static int16_t two;
static uint32_t four;
static uint64_t eight;
static char *pointer;
static _Atomic int counter;
static union {
    uint64_t whole;
    uint32_t half[2];
} both;
static struct wide wide, other;
static int copied, from = 7, filled, pipes[2];
static pthread_mutex_t lock = PTHREAD_MUTEX_INITIALIZER;

static void *write_all(void *block) {
    int wanted = 4, end = pipes[0];
    pthread_mutex_lock(&lock);
    byte = 0xfe;                                            /* 254 */
    two = -2;                                               /* 65534 */
    four = 0xfedcba98;                                      /* 4275878552 */
    eight = 0xfedcba9876543210;                             /* 18364758544493064720 */
    pointer = (char *)block + 3;                            /* block+3 */
    atomic_fetch_add(&counter, 5);                          /* 0 5 */
    atomic_compare_exchange_strong(&counter, &wanted, 9);   /* 5 */
    both.whole = 0x0000000200000001;                        /* 1 2 */
    wide = other;                                           /* none none none */
    memcpy(&copied, &from, sizeof from);                    /* none */
    if (read(end, &filled, sizeof filled) < 0) return NULL; /* none */
    pthread_mutex_unlock(&lock);
    return NULL;
}

static void *read_all(void *none) {
    uint64_t sum = byte;                                  /* 254 */
    sum += (uint64_t)two;                                 /* 65534 */
    sum += four;                                          /* 4275878552 */
    sum += eight;                                         /* 18364758544493064720 */
    sum += *pointer;                                      /* block+3 0 */
    sum += (uint64_t)atomic_exchange(&counter, 6);        /* 5 6 */
    sum += both.half[0];                                  /* 1 */
    sum += both.half[1];                                  /* 2 */
    sum += wide.parts[0] + wide.parts[1] + wide.parts[2]; /* 0 0 0 */
    sum += (uint64_t)copied;                              /* 7 */
    sum += (uint64_t)filled;                              /* 8 */
    four++;                                               /* 4275878552 4275878553 */
    return sum ? none : &lock;
}

int main(void) {
    pthread_t writer, reader;
    int eight_more = 8;
    void *block = calloc(1, 16);
    if (pipe(pipes) || write(pipes[1], &eight_more, sizeof eight_more) < 0) return 1;
    pthread_create(&writer, NULL, write_all, block);
    pthread_join(writer, NULL);
    pthread_create(&reader, NULL, read_all, NULL);
    pthread_join(reader, NULL);
    free(block);
    return 0;
}
