/* Calls that fill memory of the program. What they wrote is known afterwards. Interposes getcwd, stat, uname,
 * getrandom, frexp and others by the linker's --wrap. Must not record the write before the call: a call that fails
 * writes nothing. */
#include "fills.h"
#include "accesses.h"
#include "callers.h"
#include "deadlocks.h"
#include "texts.h"
#include "wide.h"
#include <arpa/inet.h>
#include <sys/ioctl.h>
#include <sys/statvfs.h>
#include <sys/sysinfo.h>
#include <sys/timerfd.h>
#include <sys/times.h>
#include <sys/utsname.h>

static size_t address_size(int family) { return family == AF_INET ? 4 : 16; }
FILLS(char *, getcwd, (char *to, size_t n), (to, n), , answer, TEXT_AT(answer))
FILLS(ssize_t, readlink, (const char *p, char *to, size_t n), (p, to, n), READS(p, TEXT_AT(p)), to,
      answer > 0 ? (u64)answer : 0)
FILLS(char *, realpath, (const char *p, char *to), (p, to), READS(p, TEXT_AT(p)), answer, TEXT_AT(answer))
FILLS(int, gethostname, (char *to, size_t n), (to, n), , to, answer ? 0 : TEXT_AT(to))
FILLS(char *, strerror_r, (int e, char *to, size_t n), (e, to, n), , to, answer == to ? TEXT_AT(to) : 0)
FILLS(int, __xpg_strerror_r, (int e, char *to, size_t n), (e, to, n), , to, answer ? 0 : TEXT_AT(to))
FILLS(const char *, inet_ntop, (int f, const void *a, char *to, socklen_t n), (f, a, to, n), READS(a, address_size(f)),
      to, TEXT_AT(answer))
FILLS(int, inet_pton, (int f, const char *s, void *to), (f, s, to), READS(s, TEXT_AT(s)), to,
      answer == 1 ? address_size(f) : 0)
FILLS(int, sem_getvalue, (sem_t * s, int *to), (s, to), , to, answer ? 0 : sizeof *to)

/* Of a path the letters are read, and what the system knows of the file is filled in. */
#define FILLS_STAT(name, type) \
    FILLS(int, name, (const char *p, struct type *to), (p, to), READS(p, TEXT_AT(p)), to, answer ? 0 : sizeof *to)
FILLS_STAT(stat, stat)
FILLS_STAT(lstat, stat)
FILLS_STAT(stat64, stat64)
FILLS_STAT(lstat64, stat64)
FILLS(int, fstat, (int f, struct stat *to), (f, to), , to, answer ? 0 : sizeof *to)
FILLS(int, fstat64, (int f, struct stat64 *to), (f, to), , to, answer ? 0 : sizeof *to)
FILLS(int, uname, (struct utsname * to), (to), , to, answer ? 0 : sizeof *to)
FILLS(int, getrusage, (int whose, struct rusage *to), (whose, to), , to, answer ? 0 : sizeof *to)
FILLS(double, frexp, (double v, int *to), (v, to), , to, sizeof *to)
FILLS(float, frexpf, (float v, int *to), (v, to), , to, sizeof *to)
FILLS(double, modf, (double v, double *to), (v, to), , to, sizeof *to)
FILLS(float, modff, (float v, float *to), (v, to), , to, sizeof *to)
FILLS(long double, frexpl, (long double v, int *to), (v, to), , to, sizeof *to)
FILLS(long double, modfl, (long double v, long double *to), (v, to), , to, sizeof *to)
FILLS(double, remquo, (double v, double by, int *to), (v, by, to), , to, sizeof *to)
FILLS(float, remquof, (float v, float by, int *to), (v, by, to), , to, sizeof *to)
FILLS(long double, remquol, (long double v, long double by, int *to), (v, by, to), , to, sizeof *to)
FILLS(double, lgamma_r, (double v, int *to), (v, to), , to, sizeof *to)
FILLS(float, lgammaf_r, (float v, int *to), (v, to), , to, sizeof *to)
FILLS(long double, lgammal_r, (long double v, int *to), (v, to), , to, sizeof *to)
FILLS(ssize_t, getrandom, (void *to, size_t n, unsigned how), (to, n, how), , to, answer > 0 ? (u64)answer : 0)
FILLS(int, getentropy, (void *to, size_t n), (to, n), , to, answer ? 0 : n)
FILLS(int, getrlimit, (int of, struct rlimit *to), (of, to), , to, answer ? 0 : sizeof *to)
FILLS(int, getitimer, (int of, struct itimerval *to), (of, to), , to, answer ? 0 : sizeof *to)
FILLS(clock_t, times, (struct tms * to), (to), , to, (to) && answer != -1 ? sizeof *to : 0)
FILLS(int, sysinfo, (struct sysinfo * to), (to), , to, answer ? 0 : sizeof *to)
FILLS(int, clock_getres, (clockid_t of, struct timespec *to), (of, to), , to, to && !answer ? sizeof *to : 0)
FILLS(int, statvfs, (const char *p, struct statvfs *to), (p, to), READS(p, TEXT_AT(p)), to, answer ? 0 : sizeof *to)
FILLS(int, fstatvfs, (int f, struct statvfs *to), (f, to), , to, answer ? 0 : sizeof *to)
FILLS(int, pthread_getname_np, (pthread_t t, char *to, size_t n), (t, to, n), , to, answer ? 0 : TEXT_AT(to))
FILLS(int, getgroups, (int n, gid_t *to), (n, to), , to, answer > 0 && n ? (u64)answer * sizeof *to : 0)
FILLS(size_t, confstr, (int of, char *to, size_t n), (of, to, n), , to, to ? answer < n ? answer : n : 0)
FILLS(int, sigaltstack, (const stack_t *s, stack_t *before), (s, before), s ? READS(s, sizeof *s) : (void)0, before,
      before && !answer ? sizeof *before : 0)

/* How many bytes are there, or how large a terminal is: of other requests nothing is known. */
extern int __real_ioctl(int, unsigned long, ...);
int __wrap_ioctl(int f, unsigned long what, ...) {
    va_list words;
    va_start(words, what);
    void *to = va_arg(words, void *);
    va_end(words);
    int is_count = what == FIONREAD || what == TIOCOUTQ;
    size_t size = is_count ? sizeof(int) : what == TIOCGWINSZ ? sizeof(struct winsize) : 0;
    if (size) comes_to_call();
    int answer = __real_ioctl(f, what, to);
    if (size) wrote(to, answer ? 0 : size, PC);
    return answer;
}

/* Times that run, with what they were set to before. */
#define SETS_TIME(name, given, passed_on) \
    FILLS(int, name, given, passed_on, wanted ? READS(wanted, sizeof *wanted) : (void)0, before, \
          before && !answer ? sizeof *before : 0)
SETS_TIME(setitimer, (__itimer_which_t of, const struct itimerval *wanted, struct itimerval *before),
          (of, wanted, before))
SETS_TIME(timer_settime, (timer_t of, int how, const struct itimerspec *wanted, struct itimerspec *before),
          (of, how, wanted, before))
SETS_TIME(timerfd_settime, (int f, int how, const struct itimerspec *wanted, struct itimerspec *before),
          (f, how, wanted, before))
FILLS(int, timer_gettime, (timer_t of, struct itimerspec *to), (of, to), , to, answer ? 0 : sizeof *to)
FILLS(int, timerfd_gettime, (int f, struct itimerspec *to), (f, to), , to, answer ? 0 : sizeof *to)
FILLS(int, timer_create, (clockid_t of, struct sigevent *event, timer_t *to), (of, event, to), , to,
      answer ? 0 : sizeof *to)

/* The six letters of the name of a new file, before `behind` letters. */
#define NAMES_FILE(type, name, given, passed_on, behind, there) \
    FILLS(type, name, given, passed_on, READS(t, TEXT_AT(t)), \
          t + (__real_strlen(t) >= 6u + (size_t)(behind) ? __real_strlen(t) - 6 - (size_t)(behind) : 0), \
          (there) ? 6 : 0)
NAMES_FILE(int, mkstemp, (char *t), (t), 0, answer >= 0)
NAMES_FILE(int, mkstemp64, (char *t), (t), 0, answer >= 0)
NAMES_FILE(int, mkostemp, (char *t, int how), (t, how), 0, answer >= 0)
NAMES_FILE(int, mkstemps, (char *t, int behind), (t, behind), behind, answer >= 0)
NAMES_FILE(char *, mkdtemp, (char *t), (t), 0, answer)

/* What files of more than two gigabytes need is called by other names. */
FILLS(int, getrlimit64, (int of, struct rlimit64 *to), (of, to), , to, answer ? 0 : sizeof *to)
FILLS(int, statvfs64, (const char *p, struct statvfs64 *to), (p, to), READS(p, TEXT_AT(p)), to, answer ? 0 : sizeof *to)
FILLS(int, fstatvfs64, (int f, struct statvfs64 *to), (f, to), , to, answer ? 0 : sizeof *to)

/* A number that is printed, with its end. */
#define PRINTS_NUMBER(name, type) \
    FILLS(int, name, (char *to, size_t n, const char *f, type v), (to, n, f, v), READS(f, TEXT_AT(f)), to, \
          with_end((size_t)answer, n))
PRINTS_NUMBER(strfromd, double)
PRINTS_NUMBER(strfromf, float)
PRINTS_NUMBER(strfroml, long double)

/* The place of a stream, and nothing of how its letters are converted. */
#define PLACES(more) \
    FILLS(int, fgetpos##more, (FILE * s, fpos##more##_t * to), (s, to), , &to->__pos, answer ? 0 : sizeof to->__pos) \
    WEAKLY int __real_fsetpos##more(FILE *, const fpos##more##_t *); \
    int __wrap_fsetpos##more(FILE *s, const fpos##more##_t *at) { \
        READS(&at->__pos, sizeof at->__pos); \
        return __real_fsetpos##more(s, at); \
    }
PLACES()
PLACES(64)

/* Whose rights a process has. */
#define RIGHTS(name) \
    WEAKLY int __real_##name(uid_t *, uid_t *, uid_t *); \
    int __wrap_##name(uid_t *real, uid_t *effective, uid_t *saved) { \
        comes_to_call(); \
        int answer = __real_##name(real, effective, saved); \
        size_t size = answer ? 0 : sizeof *real; \
        wrote(real, size, PC), wrote(effective, size, PC), wrote(saved, size, PC); \
        return answer; \
    }
RIGHTS(getresuid)
RIGHTS(getresgid)

/* Of an address, or of what a socket is set to, the room is read, and so much of it is written as there is room. */
#define FILLS_ROOM(name, given, passed_on, to) \
    WEAKLY int __real_##name given; \
    int __wrap_##name given { \
        socklen_t room = n ? *n : 0; \
        if (n) READS(n, sizeof *n); \
        int answer = __real_##name passed_on; \
        wrote(to, answer ? 0 : *n < room ? *n : room, PC); \
        wrote(n, answer ? 0 : sizeof *n, PC); \
        return answer; \
    }
FILLS_ROOM(getsockname, (int f, struct sockaddr *a, socklen_t *n), (f, a, n), a)
FILLS_ROOM(getpeername, (int f, struct sockaddr *a, socklen_t *n), (f, a, n), a)
FILLS_ROOM(getsockopt, (int f, int level, int of, void *to, socklen_t *n), (f, level, of, to, n), to)

/* Pairs of bytes change their places. */
extern void __real_swab(const void *, void *, ssize_t);
void __wrap_swab(const void *from, void *to, ssize_t n) {
    size_t even = n > 1 ? (size_t)n & ~(size_t)1 : 0;
    READS(from, even), WRITES(to, even);
    __real_swab(from, to, n);
}

/* These three are no weak names, so that the library of numbers is linked. */
#define SINE_AND_COSINE(name, type) \
    extern void __real_##name(type, type *, type *); \
    void __wrap_##name(type v, type *sine, type *cosine) { \
        WRITES(sine, sizeof *sine), WRITES(cosine, sizeof *cosine); \
        __real_##name(v, sine, cosine); \
    }
SINE_AND_COSINE(sincos, double)
SINE_AND_COSINE(sincosf, float)
SINE_AND_COSINE(sincosl, long double)

/* ---- numbers of chance whose state is the caller's ---- */

#define DRAWS_FROM(type, name, state, bytes) \
    extern type __real_##name(state); \
    type __wrap_##name(state s) { \
        READS(s, bytes), WRITES(s, bytes); \
        return __real_##name(s); \
    }
DRAWS_FROM(int, rand_r, unsigned *, sizeof(unsigned))
DRAWS_FROM(double, erand48, unsigned short *, 6)
DRAWS_FROM(long, nrand48, unsigned short *, 6)
DRAWS_FROM(long, jrand48, unsigned short *, 6)

/* ---- the environment, which all threads share: what is set is a write of where it lies ---- */

#define CHANGES_ENVIRON(name, given, passed_on) \
    extern int __real_##name given; \
    int __wrap_##name given { \
        if (has_threads) WRITES(&environ, sizeof environ); \
        return __real_##name passed_on; \
    }
extern char *__real_getenv(const char *);
char *__wrap_getenv(const char *name) {
    if (has_threads) READS(&environ, sizeof environ);
    return __real_getenv(name);
}
CHANGES_ENVIRON(setenv, (const char *name, const char *value, int over), (name, value, over))
CHANGES_ENVIRON(unsetenv, (const char *name), (name))
CHANGES_ENVIRON(putenv, (char *text), (text))
CHANGES_ENVIRON(clearenv, (void), ())
