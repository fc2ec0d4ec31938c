/* Each thread gets a number. The racy twin passes the address of the loop's variable. */
#include "pair.h"
static long sum[3];

THREAD(takes) {
    int number = *(int *)argument; /* RACE */
    sum[number % 3] += number; /* RACE sum */
    return NULL;
}

int main(void) {
    pthread_t threads[3];
    int numbers[3], k = 0;
    for (; k < 3; k++) { /* RACE */
        numbers[k] = k;
        pthread_create(&threads[k], NULL, takes, IF_RACY(&k) IF_CLEAN(&numbers[k]));
    }
    for (int n = 0; n < 3; n++) pthread_join(threads[n], NULL);
    return sum[0] == 9;
}
