/* The racy twin destroys a condition variable that the other thread may still signal. */
#include "pair.h"
static pthread_cond_t changed = PTHREAD_COND_INITIALIZER;

THREAD(signals) {
    pthread_cond_signal(&changed); /* RACE */
    return argument;
}

THREAD(destroys) {
    IF_RACY(pthread_cond_destroy(&changed);) /* RACE */
    return argument;
}

int main(void) {
    run_both(signals, destroys);
    IF_CLEAN(pthread_cond_destroy(&changed));
    return 0;
}
