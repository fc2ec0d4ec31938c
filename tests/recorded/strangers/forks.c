/* A program with threads that forks; the child writes into shared memory and ends, and the parent waits for it. The
 * handlers of fork run in both. */
#include <pthread.h>
#include <stdio.h>
#include <string.h>
#include <sys/mman.h>
#include <sys/wait.h>
#include <unistd.h>
static pthread_mutex_t m = PTHREAD_MUTEX_INITIALIZER;
static int x, before, after, handled;
static int *shared;
static void lock(void) { pthread_mutex_lock(&m), before++; }
static void unlock(void) { after++, pthread_mutex_unlock(&m); }
static void *work(void *p) {
    for (int k = 0; k < 20; k++) {
        pthread_mutex_lock(&m), x++, pthread_mutex_unlock(&m);
        handled++; /* RACE */
    }
    return p;
}
static int child(int k) {
    pthread_mutex_lock(&m), x += 1000, pthread_mutex_unlock(&m);
    shared[k] = x >= 1000 ? k + 1 : -1;
    return k;
}
int main(void) {
    pthread_t t;
    int sum = 0, status;
    shared = mmap(NULL, 4096, PROT_READ | PROT_WRITE, MAP_SHARED | MAP_ANONYMOUS, -1, 0);
    pthread_atfork(lock, unlock, unlock);
    pthread_create(&t, NULL, work, NULL);
    for (int k = 0; k < 3; k++) {
        pid_t p = fork();
        if (!p) _exit(child(k));
        if (waitpid(p, &status, 0) != p) return 1;
        sum += shared[k] + WEXITSTATUS(status);
        handled++; /* RACE */
    }
    pthread_join(t, NULL);
    printf("%d %d %d %d\n", x, sum, before, after);
    return 0;
}
