/* Two files of one name, a function that is put in its place, one that calls itself, and a block that is given back. */
#include <pthread.h>
#include <stdlib.h>
void p_work(void);
void q_work(void);
static int *block;
static inline __attribute__((always_inline)) void both(void) {
    p_work();
    q_work();
}
static void down(int n) {
    if (n)
        down(n - 1);
    else
        both();
}
static void *go(void *none) {
    down(5);
    return none;
}
static void *give_back(void *none) {
    down(1);
    free(block);
    return none;
}
int main(void) {
    pthread_t one, other;
    block = malloc(sizeof *block);
    pthread_create(&one, NULL, go, NULL);
    pthread_create(&other, NULL, give_back, NULL);
    *block = 1;
    pthread_join(one, NULL);
    pthread_join(other, NULL);
    return 0;
}
