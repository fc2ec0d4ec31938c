/* Sets of signals and actions that calls read and fill. */
#include <pthread.h>
#include <signal.h>
#include <stdio.h>
static pthread_mutex_t m = PTHREAD_MUTEX_INITIALIZER;
static struct sigaction before, wanted, same = {.sa_flags = SA_RESTART};
static sigset_t of_process, of_thread, blocked, pending, built, guarded;
static __thread volatile long n;

static void handles(int number) { n += number; }

static void guards(int number) {
    pthread_mutex_lock(&m);
    sigaddset(&guarded, number);
    pthread_sigmask(SIG_BLOCK, &guarded, NULL);
    pthread_mutex_unlock(&m);
}

static void *fills(void *p) {
    n += sigaction(SIGUSR1, NULL, &before);           /* RACE a */
    n += sigprocmask(SIG_BLOCK, NULL, &of_process);   /* RACE b */
    n += pthread_sigmask(SIG_BLOCK, NULL, &of_thread); /* RACE c */
    n += pthread_sigmask(SIG_BLOCK, &blocked, NULL);  /* RACE d */
    n += sigpending(&pending);                        /* RACE e */
    n += sigaction(SIGUSR2, &wanted, NULL);           /* RACE f */
    n += sigemptyset(&built);                         /* RACE g */
    n += sigaction(SIGUSR2, &same, NULL);
    guards(SIGUSR1);
    return p;
}

static void *looks(void *p) {
    n += before.sa_flags;                        /* RACE a */
    n += sigismember(&of_process, SIGINT);       /* RACE b */
    n += sigismember(&of_thread, SIGINT);        /* RACE c */
    n += sigaddset(&blocked, SIGUSR2);           /* RACE d */
    n += sigismember(&pending, SIGINT);          /* RACE e */
    wanted.sa_flags = SA_RESTART;                /* RACE f */
    n += sigdelset(&built, SIGINT);              /* RACE g */
    n += sigaction(SIGUSR1, &same, NULL);
    guards(SIGUSR2);
    return p;
}

int main(void) {
    pthread_t t[2];
    wanted.sa_handler = same.sa_handler = handles;
    pthread_create(&t[0], NULL, fills, NULL), pthread_create(&t[1], NULL, looks, NULL);
    for (int k = 0; k < 2; k++) pthread_join(t[k], NULL);
    printf("%d %d\n", sigismember(&guarded, SIGUSR1), sigismember(&guarded, SIGUSR2));
    return 0;
}
