/* Memory of the system that is given back and mapped again is other memory. */
#include <pthread.h>
#include <stdio.h>
#include <stdlib.h>
#include <sys/mman.h>
static pthread_mutex_t m = PTHREAD_MUTEX_INITIALIZER;
static long sum;
static void *work(void *p) {
    for (int k = 0; k < 20; k++) {
        int *b = mmap(NULL, 65536, PROT_READ | PROT_WRITE, MAP_PRIVATE | MAP_ANONYMOUS, -1, 0);
        if (b == MAP_FAILED) abort();
        for (int i = 0; i < 10; i++) b[i] = k;
        for (int i = 0; i < 10; i++)
            if (b[i] != k) abort();
        munmap(b, 65536);
    }
    pthread_mutex_lock(&m), sum++, pthread_mutex_unlock(&m);
    return p;
}
int main(void) {
    pthread_t t[3];
    for (int k = 0; k < 3; k++) pthread_create(&t[k], NULL, work, NULL);
    for (int k = 0; k < 3; k++) pthread_join(t[k], NULL);
    printf("%ld\n", sum);
    return 0;
}
