/* Two producers say by one counter that they are ready. The racy consumer waits for the first alone. */
#include "pair.h"
static pthread_mutex_t mutex = PTHREAD_MUTEX_INITIALIZER;
static pthread_cond_t changed = PTHREAD_COND_INITIALIZER;
static int ready, data[2];

static void produce(int mine) {
    data[mine] = 1; /* RACE */
    LOCK(mutex);
    ready++;
    pthread_cond_signal(&changed);
    UNLOCK(mutex);
}

THREAD(first) {
    produce(0);
    return argument;
}

THREAD(second) {
    produce(1);
    return argument;
}

int main(void) {
    start_both(first, second);
    LOCK(mutex);
    while (ready < IF_RACY(1) IF_CLEAN(2)) pthread_cond_wait(&changed, &mutex);
    UNLOCK(mutex);
    int sum = data[0] + data[1]; /* RACE */
    join_both();
    return sum == 9;
}
