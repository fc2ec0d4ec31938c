/* A join that is tried. The racy maker reads although the thread had not ended. */
#include "pair.h"
static int result;

THREAD(works) {
    usleep(2000);
    result = 1; /* RACE */
    return argument;
}

int main(void) {
    int seen = 0;
    pthread_create(&first_thread, NULL, works, NULL);
    int failed = pthread_tryjoin_np(first_thread, NULL);
    IF_CLEAN(while (failed) failed = pthread_tryjoin_np(first_thread, NULL), usleep(500));
    seen = result; /* RACE */
    if (failed) pthread_join(first_thread, NULL);
    return seen == 9;
}
