/* What calls give back in memory of their caller: how a thread or a process ended, which signal came, bytes of chance,
 * addresses, limits and times. Another thread reads it. */
#define _GNU_SOURCE
#include <pthread.h>
#include <search.h>
#include <signal.h>
#include <stdio.h>
#include <stdlib.h>
#include <sys/random.h>
#include <sys/resource.h>
#include <sys/socket.h>
#include <sys/statvfs.h>
#include <sys/sysinfo.h>
#include <sys/time.h>
#include <sys/times.h>
#include <sys/un.h>
#include <sys/wait.h>
#include <threads.h>
#include <time.h>
#include <unistd.h>
static int c11_value, status, number, type, table[4], ends[2];
static void *tried, *timed, *clocked, *tree;
static siginfo_t info, ended, emptied;
static struct sockaddr_un address, peer;
static struct rlimit limit;
static struct itimerval interval;
static struct tms times_of_all;
static struct sysinfo system_info;
static struct timespec resolution;
static struct statvfs disk, open_disk;
static char bytes[8], more_bytes[8], swapped[8], name[16];
static size_t count = 1, searched = 1;
static __thread volatile long n;

static void *nothing(void *p) { return p; }
static int nothing_of_c11(void *p) { return p == NULL; }
static int compare(const void *a, const void *b) { return *(const int *)a != *(const int *)b; }

static pthread_t made(void) {
    pthread_t t;
    if (pthread_create(&t, NULL, nothing, NULL)) abort();
    return t;
}

static void joins(void) {
    struct timespec far = {1ll << 32, 0};
    thrd_t t;
    pthread_t other = made();
    if (thrd_create(&t, nothing_of_c11, NULL)) abort();
    thrd_join(t, &c11_value); /* RACE a */
    while (pthread_tryjoin_np(other, &tried)) {} /* RACE b */
    pthread_timedjoin_np(made(), &timed, &far); /* RACE c */
    pthread_clockjoin_np(made(), &clocked, CLOCK_MONOTONIC, &far); /* RACE d */
}

static pid_t child(void) {
    pid_t one = fork();
    if (!one) _exit(3);
    return one;
}

static void waits(void) {
    sigset_t set;
    sigemptyset(&set), sigaddset(&set, SIGUSR1), pthread_sigmask(SIG_BLOCK, &set, NULL);
    pthread_kill(pthread_self(), SIGUSR1);
    sigwait(&set, &number); /* RACE e */
    pthread_kill(pthread_self(), SIGUSR1);
    sigwaitinfo(&set, &info); /* RACE f */
    pid_t one = child(), other = child();
    while (waitpid(one, &status, 0) != one) {} /* RACE g */
    while (waitid(P_PID, (id_t)other, &ended, WEXITED)) {} /* RACE h */
    if (!waitid(P_PID, (id_t)other, &emptied, WEXITED)) abort(); /* RACE z */
}

static void asks(void) {
    socklen_t size = sizeof address, other = sizeof peer, of_type = sizeof type;
    if (getrandom(bytes, 4, 0) != 4) abort(); /* RACE i */
    if (getentropy(more_bytes, 4)) abort(); /* RACE j */
    getsockname(ends[0], (struct sockaddr *)&address, &size); /* RACE k */
    getpeername(ends[0], (struct sockaddr *)&peer, &other); /* RACE l */
    getsockopt(ends[0], SOL_SOCKET, SO_TYPE, &type, &of_type); /* RACE m */
    getrlimit(RLIMIT_NOFILE, &limit); /* RACE n */
    getitimer(ITIMER_REAL, &interval); /* RACE o */
    times(&times_of_all); /* RACE p */
    sysinfo(&system_info); /* RACE q */
    clock_getres(CLOCK_MONOTONIC, &resolution); /* RACE r */
    statvfs("/", &disk); /* RACE s */
    fstatvfs(ends[0], &open_disk); /* RACE t */
    pthread_getname_np(pthread_self(), name, sizeof name); /* RACE u */
    swab("abcdefg", swapped, 7); /* RACE v */
}

static void searches(void) {
    static int key = 5, found = 0;
    lsearch(&key, table, &count, sizeof *table, compare); /* RACE w */
    n += lfind(&found, table, &searched, sizeof *table, compare) != NULL; /* RACE x */
    n += tsearch(&key, &tree, compare) != NULL; /* RACE y */
}

static void *calls(void *p) {
    joins(), waits(), asks(), searches();
    return p;
}

static void *reads(void *p) {
    n += c11_value; /* RACE a */
    n += tried != NULL; /* RACE b */
    n += timed != NULL; /* RACE c */
    n += clocked != NULL; /* RACE d */
    n += number; /* RACE e */
    n += info.si_signo; /* RACE f */
    n += status; /* RACE g */
    n += ended.si_pid; /* RACE h */
    n += emptied.si_pid; /* RACE z */
    n += bytes[3]; /* RACE i */
    n += more_bytes[3]; /* RACE j */
    n += address.sun_family; /* RACE k */
    n += peer.sun_family; /* RACE l */
    n += type; /* RACE m */
    n += (long)limit.rlim_cur; /* RACE n */
    n += interval.it_value.tv_sec; /* RACE o */
    n += times_of_all.tms_utime; /* RACE p */
    n += system_info.uptime; /* RACE q */
    n += resolution.tv_nsec; /* RACE r */
    n += (long)disk.f_bsize; /* RACE s */
    n += (long)open_disk.f_bsize; /* RACE t */
    n += name[0]; /* RACE u */
    n += swapped[5]; /* RACE v */
    n += table[1]; /* RACE w */
    searched = 1; /* RACE x */
    n += tfind("none", &tree, compare) != NULL; /* RACE y */
    n += bytes[4] + more_bytes[4] + swapped[6] + address.sun_path[9];
    return p;
}

int main(void) {
    pthread_t t[2];
    if (socketpair(AF_UNIX, SOCK_STREAM, 0, ends)) abort();
    pthread_create(&t[0], NULL, calls, NULL);
    pthread_create(&t[1], NULL, reads, NULL);
    for (int k = 0; k < 2; k++) pthread_join(t[k], NULL);
    n += c11_value + status + table[1];
    puts("done");
    return 0;
}
