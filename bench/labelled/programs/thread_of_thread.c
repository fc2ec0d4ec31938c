/* A thread makes another and ends. The racy maker joins the first and not the second. */
#include "pair.h"
static pthread_t inner;
static int result;

THREAD(works) {
    result = 1; /* RACE */
    return argument;
}

THREAD(makes) {
    pthread_create(&inner, NULL, works, NULL);
    return argument;
}

int main(void) {
    pthread_create(&first_thread, NULL, makes, NULL);
    pthread_join(first_thread, NULL);
    IF_CLEAN(pthread_join(inner, NULL));
    int seen = result; /* RACE */
    IF_RACY(pthread_join(inner, NULL));
    return seen == 9;
}
