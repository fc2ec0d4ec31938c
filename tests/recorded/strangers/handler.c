/* A handler that leaves by siglongjmp, one that sets a flag for another thread, and one on its own stack. */
#define _GNU_SOURCE
#include <fcntl.h>
#include <pthread.h>
#include <setjmp.h>
#include <signal.h>
#include <stdatomic.h>
#include <stdio.h>
#include <stdlib.h>
#include <string.h>
#include <unistd.h>
static atomic_int reads;
static volatile sig_atomic_t stop;
static sigjmp_buf back;
static int ended, x, sum;
static pthread_mutex_t m = PTHREAD_MUTEX_INITIALIZER;
static void on_alarm(int n) {
    (void)n;
    siglongjmp(back, 1);
}
static void on_user(int n) { stop = n; /* RACE */ }
/* Whether the main thread sleeps, as its state in the system says. */
static int main_sleeps(void) {
    char path[64], text[512];
    snprintf(path, sizeof path, "/proc/self/task/%d/stat", (int)getpid());
    int file = open(path, O_RDONLY);
    ssize_t n = read(file, text, sizeof text - 1);
    close(file);
    text[n > 0 ? n : 0] = 0;
    char *behind_the_name = strrchr(text, ')');
    return behind_the_name && behind_the_name[2] == 'S';
}
static void *works(void *p) {
    while (!atomic_load_explicit(&reads, memory_order_relaxed) || !main_sleeps()) usleep(1000);
    pthread_kill(*(pthread_t *)p, SIGALRM);
    while (!stop) { /* RACE */
        pthread_mutex_lock(&m), x++, pthread_mutex_unlock(&m);
        usleep(1000);
    }
    return p;
}
int main(void) {
    pthread_t t, own_id = pthread_self();
    char *stack = malloc(65536);
    stack_t own = {.ss_sp = stack, .ss_size = 65536};
    sigaltstack(&own, NULL);
    struct sigaction a = {.sa_handler = on_user, .sa_flags = SA_ONSTACK};
    sigaction(SIGUSR1, &a, NULL);
    signal(SIGALRM, on_alarm);
    int ends[2];
    if (pipe(ends)) return 1;
    if (!sigsetjmp(back, 1)) {
        pthread_create(&t, NULL, works, &own_id);
        char c;
        atomic_store_explicit(&reads, 1, memory_order_relaxed);
        if (read(ends[0], &c, 1) >= 0) return 2;
    } else {
        ended = 1;
    }
    for (; !sum; usleep(1000)) pthread_mutex_lock(&m), sum += x > 0, pthread_mutex_unlock(&m);
    kill(getpid(), SIGUSR1);
    pthread_join(t, NULL);
    printf("%d %d\n", ended, sum);
    return 0;
}
