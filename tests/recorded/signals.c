/* Signals: a handler runs in a thread that waits in a call, which then goes on to wait; timers end calls and come while threads begin;
 * and a thread takes a signal by sigwait(). */
#include <arpa/inet.h>
#include <netinet/in.h>
#include <pthread.h>
#include <signal.h>
#include <stdatomic.h>
#include <stdlib.h>
#include <sys/socket.h>
#include <sys/time.h>
static atomic_int ticks, told;
static int listening, sum;
static volatile int racy;
static struct sockaddr_in at;
static pthread_mutex_t m = PTHREAD_MUTEX_INITIALIZER;

static void on_alarm(int number) { (void)number, ticks = 1; }
static void on_user(int number, siginfo_t *info, void *context) { (void)info, (void)context, told = number; }

static void *waits(void *none) {
    if (accept(listening, NULL, NULL) < 0) abort();
    racy = 1; /* RACE */
    return none;
}

static void *takes(void *set) {
    int number;
    if (sigwait(set, &number) || number != SIGUSR2) abort();
    return NULL;
}

static void *works(void *none) {
    for (int k = 0; k < 50; k++) pthread_mutex_lock(&m), sum++, pthread_mutex_unlock(&m);
    return none;
}

static void prepare(sigset_t *set) {
    struct sigaction by_user = {.sa_flags = SA_SIGINFO | SA_RESTART, .sa_sigaction = on_user}, before;
    struct itimerval often = {{0, 500}, {0, 500}};
    socklen_t n = sizeof at;
    if (signal(SIGALRM, on_alarm) != SIG_DFL || sigaction(SIGUSR1, &by_user, NULL) || sigaction(SIGALRM, NULL, &before)) abort();
    if (before.sa_handler != on_alarm || (before.sa_flags & SA_SIGINFO) || signal(SIGALRM, on_alarm) != on_alarm) abort();
    sigemptyset(set), sigaddset(set, SIGUSR2), pthread_sigmask(SIG_BLOCK, set, NULL), setitimer(ITIMER_REAL, &often, NULL);
    listening = socket(AF_INET, SOCK_STREAM, 0), at.sin_family = AF_INET, at.sin_addr.s_addr = htonl(INADDR_LOOPBACK);
    if (bind(listening, (struct sockaddr *)&at, n) || listen(listening, 1) || getsockname(listening, (struct sockaddr *)&at, &n)) abort();
}

int main(void) {
    pthread_t waiting, taking, working[8];
    struct itimerval never = {{0, 0}, {0, 0}};
    sigset_t set;
    prepare(&set);
    pthread_create(&waiting, NULL, waits, NULL), pthread_create(&taking, NULL, takes, &set);
    for (int k = 0; k < 8; k++) pthread_create(&working[k], NULL, works, NULL);
    for (int k = 0; k < 3; k++) pthread_kill(waiting, SIGUSR1);
    for (int k = 0; k < 8; k++) pthread_join(working[k], NULL);
    int out = socket(AF_INET, SOCK_STREAM, 0);
    pthread_kill(taking, SIGUSR2), pthread_join(taking, NULL);
    setitimer(ITIMER_REAL, &never, NULL);
    if (sum != 400 || connect(out, (struct sockaddr *)&at, sizeof at)) abort();
    racy = 2; /* RACE */
    pthread_join(waiting, NULL);
    return 0;
}
