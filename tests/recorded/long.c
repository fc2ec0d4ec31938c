/* Two threads count N times each without a lock, and sleep PAUSE microseconds between: long COUNT PAUSE. */
#include <pthread.h>
#include <stdlib.h>
#include <unistd.h>
static long count, pause_;
static volatile long hits;
static void *go(void *none) {
    for (long k = 0; k < count; k++) {
        hits++;
        if (pause_) usleep(pause_);
    }
    return none;
}
int main(int words, char **word) {
    pthread_t one, other;
    count = words > 1 ? atol(word[1]) : 1;
    pause_ = words > 2 ? atol(word[2]) : 0;
    pthread_create(&one, NULL, go, NULL);
    pthread_create(&other, NULL, go, NULL);
    pthread_join(one, NULL);
    pthread_join(other, NULL);
    return 0;
}
