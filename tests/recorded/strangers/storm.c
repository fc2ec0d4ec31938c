/* A timer that rings faster than its handler is done, while threads begin, wait for each other and end: nothing hangs or
 * crashes. Each wave has so many rings at most, so its threads go on also where they are slow. */
#include <pthread.h>
#include <signal.h>
#include <stdatomic.h>
#include <stdio.h>
#include <sys/time.h>
enum { RINGS = 2000, WAVES = 8, THREADS = 3, ROUNDS = 15 };
static atomic_long rings;
static pthread_mutex_t m = PTHREAD_MUTEX_INITIALIZER;
static pthread_cond_t c = PTHREAD_COND_INITIALIZER;
static int turn, total;
static void ring_every(long microseconds) {
    struct itimerval t = {{0, microseconds}, {0, microseconds}};
    setitimer(ITIMER_REAL, &t, NULL);
}
static void on_alarm(int n) {
    (void)n;
    if (++rings > RINGS) ring_every(0);
}
static void *works(void *p) {
    for (int k = 0; k < ROUNDS; k++) {
        pthread_mutex_lock(&m);
        while (turn % THREADS != (int)(long)p) pthread_cond_wait(&c, &m);
        turn++, total++;
        pthread_cond_broadcast(&c);
        pthread_mutex_unlock(&m);
    }
    return p;
}
/* The system prefers the main thread for a signal, so in some waves it has none. */
static void block_signals(int how) {
    sigset_t alarm;
    sigemptyset(&alarm);
    sigaddset(&alarm, SIGALRM);
    pthread_sigmask(how, &alarm, NULL);
}
static void run_wave(int is_blocked) {
    pthread_t t[THREADS];
    rings = 0;
    ring_every(10);
    for (long k = 0; k < THREADS; k++) pthread_create(&t[k], NULL, works, (void *)k);
    if (is_blocked) block_signals(SIG_BLOCK);
    for (int k = 0; k < THREADS; k++) pthread_join(t[k], NULL);
    ring_every(0);
    block_signals(SIG_UNBLOCK);
}
int main(void) {
    signal(SIGALRM, on_alarm);
    for (int wave = 0; wave < WAVES; wave++) run_wave(wave % 4);
    printf("%d\n", total);
    return 0;
}
