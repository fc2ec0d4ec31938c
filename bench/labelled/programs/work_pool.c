/* Jobs go through a queue under a mutex. The racy worker writes its result after it says that the job is done. */
#include "pair.h"
static pthread_mutex_t mutex = PTHREAD_MUTEX_INITIALIZER;
static pthread_cond_t more = PTHREAD_COND_INITIALIZER, less = PTHREAD_COND_INITIALIZER;
static int jobs, done, result;

THREAD(works) {
    LOCK(mutex);
    while (!jobs) pthread_cond_wait(&more, &mutex);
    jobs--;
    UNLOCK(mutex);
    IF_CLEAN(result = 5;)
    LOCK(mutex);
    done++;
    pthread_cond_signal(&less);
    UNLOCK(mutex);
    IF_RACY(result = 5;) /* RACE */
    return argument;
}

THREAD(asks) {
    LOCK(mutex);
    jobs++;
    pthread_cond_signal(&more);
    while (!done) pthread_cond_wait(&less, &mutex);
    UNLOCK(mutex);
    return result == 9 ? argument : NULL; /* RACE */
}

int main(void) {
    run_both(works, asks);
    return 0;
}
