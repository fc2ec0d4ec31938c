/* A bank: a transfer looks at the balance before it takes the lock; the assertion fails only if two transfers cross. */
#include <assert.h>
#include <pthread.h>
#include <stdio.h>
static pthread_mutex_t m = PTHREAD_MUTEX_INITIALIZER; static int balance[2] = {100, 0};
static void *transfer(void *amount) {
    int n = (int)(long)amount;
    if (balance[0] >= n) { /* no lock */
        pthread_mutex_lock(&m);
        balance[0] -= n; balance[1] += n;
        pthread_mutex_unlock(&m);
    }
    return NULL;
}
int main(void) {
    pthread_t a, b;
    pthread_create(&a, NULL, transfer, (void *)70L); pthread_create(&b, NULL, transfer, (void *)60L);
    pthread_join(a, NULL); pthread_join(b, NULL);
    printf("%d %d\n", balance[0], balance[1]);
    assert(balance[0] >= 0);
}
