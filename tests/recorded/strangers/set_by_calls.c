/* What calls set up or find out in memory of their caller: keys and attributes of threads, how a thread may be
 * cancelled, processors, the time, signal stacks and places in streams. Another thread uses it. */
#define _GNU_SOURCE
#include <pthread.h>
#include <sched.h>
#include <signal.h>
#include <stdio.h>
#include <stdlib.h>
#include <string.h>
#include <sys/resource.h>
#include <sys/statvfs.h>
#include <threads.h>
#include <time.h>
#include <unistd.h>
static pthread_key_t key;
static tss_t c11_key;
static pthread_attr_t attributes, sized, detached, made_by;
static pthread_mutexattr_t of_mutex, typed;
static pthread_condattr_t of_condition;
static pthread_rwlockattr_t of_rwlock;
static int state, kind, policy, is_detached;
static size_t stack_size;
static struct sched_param parameters;
static cpu_set_t processors, own_processors;
static struct timespec now;
static uid_t real, effective, saved;
static stack_t alternate, other = {.ss_flags = SS_DISABLE};
static fpos_t start, begin;
static char digits[8], path[64];
static struct rlimit64 limit;
static struct statvfs64 disk;
static FILE *file;
static __thread volatile long n;

static void *nothing(void *p) { return p; }

static void of_threads(void) {
    pthread_t t;
    n += pthread_key_create(&key, NULL); /* RACE a */
    n += tss_create(&c11_key, NULL); /* RACE b */
    n += pthread_attr_init(&attributes); /* RACE c */
    n += pthread_attr_setstacksize(&sized, 1 << 20); /* RACE d */
    n += pthread_attr_getstacksize(&sized, &stack_size); /* RACE e */
    n += pthread_attr_getdetachstate(&detached, &is_detached); /* RACE f */
    n += pthread_mutexattr_init(&of_mutex); /* RACE g */
    n += pthread_mutexattr_settype(&typed, PTHREAD_MUTEX_RECURSIVE); /* RACE h */
    n += pthread_condattr_init(&of_condition); /* RACE i */
    n += pthread_rwlockattr_init(&of_rwlock); /* RACE j */
    n += pthread_setcancelstate(PTHREAD_CANCEL_DISABLE, &state); /* RACE k */
    n += pthread_setcanceltype(PTHREAD_CANCEL_DEFERRED, &kind); /* RACE l */
    n += pthread_getschedparam(pthread_self(), &policy, &parameters); /* RACE m */
    n += pthread_getaffinity_np(pthread_self(), sizeof own_processors, &own_processors); /* RACE n */
    n += sched_getaffinity(0, sizeof processors, &processors); /* RACE o */
    if (pthread_create(&t, &made_by, nothing, NULL)) abort(); /* RACE p */
    pthread_join(t, NULL);
}

static void of_processes(void) {
    n += getresuid(&real, &effective, &saved); /* RACE r */
    n += timespec_get(&now, TIME_UTC); /* RACE s */
    n += sigaltstack(&other, &alternate); /* RACE t */
    n += fgetpos(file, &start); /* RACE u */
    n += fsetpos(file, &begin); /* RACE v */
    n += strfromd(digits, 4, "%.1f", 1.5); /* RACE w */
    n += (long)confstr(_CS_PATH, path, sizeof path); /* RACE x */
    n += getrlimit64(RLIMIT_NOFILE, &limit); /* RACE y */
    n += statvfs64("/", &disk); /* RACE z */
}

static void *calls(void *p) {
    of_threads(), of_processes();
    return p;
}

static void *uses(void *p) {
    n += key; /* RACE a */
    n += c11_key; /* RACE b */
    n += ((char *)&attributes)[8]; /* RACE c */
    n += ((char *)&sized)[34]; /* RACE d */
    n += (long)stack_size; /* RACE e */
    n += is_detached; /* RACE f */
    n += *(char *)&of_mutex; /* RACE g */
    n += *(char *)&typed; /* RACE h */
    n += *(char *)&of_condition; /* RACE i */
    n += *(char *)&of_rwlock; /* RACE j */
    n += state; /* RACE k */
    n += kind; /* RACE l */
    n += policy + parameters.sched_priority; /* RACE m */
    n += CPU_ISSET(0, &own_processors); /* RACE n */
    n += CPU_ISSET(0, &processors); /* RACE o */
    pthread_attr_setdetachstate(&made_by, PTHREAD_CREATE_JOINABLE); /* RACE p */
    n += real + effective + saved; /* RACE r */
    n += now.tv_nsec; /* RACE s */
    n += alternate.ss_flags; /* RACE t */
    n += ((char *)&start)[0]; /* RACE u */
    ((char *)&begin)[0] = 0; /* RACE v */
    n += digits[3]; /* RACE w */
    n += path[0]; /* RACE x */
    n += (long)limit.rlim_cur; /* RACE y */
    n += (long)disk.f_bsize; /* RACE z */
    n += digits[4] + ((char *)&sized)[16] + ((char *)&start)[8] + path[63];
    return p;
}

int main(void) {
    pthread_t t[2];
    pthread_attr_init(&sized), pthread_attr_init(&detached), pthread_attr_init(&made_by);
    pthread_mutexattr_init(&typed);
    if (!(file = tmpfile()) || fgetpos(file, &begin)) abort();
    pthread_create(&t[0], NULL, calls, NULL);
    pthread_create(&t[1], NULL, uses, NULL);
    for (int k = 0; k < 2; k++) pthread_join(t[k], NULL);
    printf("%s %zu %d\n", digits, stack_size, is_detached);
    return 0;
}
