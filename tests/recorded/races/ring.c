/* A ring for one producer and one consumer, used by two producers: an element is lost or doubled. A wait on a condition
 * variable with a time limit is in it. */
#include <assert.h>
#include <pthread.h>
#include <stdio.h>
#include <time.h>
static pthread_mutex_t m = PTHREAD_MUTEX_INITIALIZER; static pthread_cond_t c = PTHREAD_COND_INITIALIZER;
static int ring[16], head, tail, done;
static void *produce(void *from) {
    for (int k = 0; k < 3; k++) {
        int at = head;               /* no lock */
        ring[at % 16] = (int)(long)from + k;
        head = at + 1;
        pthread_mutex_lock(&m); pthread_cond_signal(&c); pthread_mutex_unlock(&m);
    }
    pthread_mutex_lock(&m); done++; pthread_cond_signal(&c); pthread_mutex_unlock(&m);
    return NULL;
}
int main(void) {
    pthread_t a, b; int sum = 0;
    pthread_create(&a, NULL, produce, (void *)10L); pthread_create(&b, NULL, produce, (void *)20L);
    pthread_mutex_lock(&m);
    while (done < 2) {
        struct timespec t; clock_gettime(CLOCK_REALTIME, &t); t.tv_nsec += 1000000;
        if (t.tv_nsec >= 1000000000) t.tv_nsec -= 1000000000, t.tv_sec++;
        pthread_cond_timedwait(&c, &m, &t);
    }
    pthread_mutex_unlock(&m);
    pthread_join(a, NULL); pthread_join(b, NULL);
    for (; tail < head; tail++) sum += ring[tail % 16];
    printf("%d elements, sum %d\n", head, sum);
    assert(head == 6 && sum == 96);
}
