/* The maker sets what its thread reads. The racy twin sets it after the thread is made. */
#include "pair.h"
static int setting;

THREAD(uses) {
    return setting == 9 ? argument : NULL; /* RACE */
}

int main(void) {
    IF_CLEAN(setting = 4;)
    pthread_create(&first_thread, NULL, uses, NULL);
    IF_RACY(setting = 4;) /* RACE */
    pthread_join(first_thread, NULL);
    return 0;
}
