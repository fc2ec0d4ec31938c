/* One thread frees the block with the condition variable after it saw the flag. The racy twin signals after the flag
 * is set and the mutex is free. */
#include "pair.h"
struct job {
    pthread_mutex_t mutex;
    pthread_cond_t done;
    int flag;
};
static struct job *job;

THREAD(reports) {
    LOCK(job->mutex);
    job->flag = 1;
    IF_CLEAN(pthread_cond_signal(&job->done);)
    UNLOCK(job->mutex);
    IF_RACY(pthread_cond_signal(&job->done);) /* RACE */
    return argument;
}

THREAD(looks) {
    int flag = 0;
    while (!flag) {
        LOCK(job->mutex);
        flag = job->flag;
        UNLOCK(job->mutex);
        usleep(100);
    }
    IF_RACY(free(job);) /* RACE */
    return argument;
}

int main(void) {
    job = calloc(1, sizeof *job);
    run_both(reports, looks);
    IF_CLEAN(free(job));
    return 0;
}
