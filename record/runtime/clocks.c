/* The time: a followed run gets it as recorded. Also what the C library makes of a time, of which some lies in memory
 * that all threads share. Interposes clock_gettime, time and gettimeofday, and, by the linker's --wrap, localtime,
 * mktime, strftime and their kin. Must not ask for the time by these names: it would be a tick. */
#define OF_CLOCKS
#include "clocks.h"
#include "accesses.h"
#include "callers.h"
#include "events.h"
#include "follow.h"
#include "plan.h"
#include "texts.h"

static int is_of_program(u64 from) { return from - main_start < main_size || is_hooked(from); }

/* What a call is about to write. A library that calls for itself writes into its own memory. */
#define WRITES_TIME(at) \
    do { \
        u64 from_ = (u64)__builtin_return_address(0); \
        if (is_there(at) && is_of_program(from_)) access_(WRITE, (at), sizeof *(at), from_); \
    } while (0)

static int time_of(clockid_t k, struct timespec *t, u64 from) {
    if (IDLE) return (int)syscall(SYS_clock_gettime, k, t);
    struct tick_entry *e = world_expected(ANSWER, in_program(from));
    struct timespec now = {0, 0};
    int answer = 0;
    if (e) now = (struct timespec){(time_t)e->at, (long)e->answer};
    else answer = (int)syscall(SYS_clock_gettime, k, &now);
    put_answer(ANSWER, (u64)now.tv_sec, (u64)now.tv_nsec, in_program(from));
    if (answer) return answer;
    if (t && is_of_program(from)) access_(WRITE, t, sizeof *t, from);
    *t = now;
    return 0;
}
int clock_gettime(clockid_t k, struct timespec *t) { return time_of(k, t, (u64)__builtin_return_address(0)); }

/* C11's time of day. */
int timespec_get(struct timespec *t, int base) {
    REAL(timespec_get, int, struct timespec *, int);
    if (base != TIME_UTC) return real(t, base);
    return time_of(CLOCK_REALTIME, t, (u64)__builtin_return_address(0)) ? 0 : base;
}

int gettimeofday(struct timeval *t, void *z) {
    if (IDLE || !is_there(t)) return (int)syscall(SYS_gettimeofday, t, z);
    struct tick_entry *e = world_expected(ANSWER, PC);
    struct timeval now;
    if (e) now = (struct timeval){(time_t)e->at, (suseconds_t)e->answer};
    else syscall(SYS_gettimeofday, &now, z);
    put_answer(ANSWER, (u64)now.tv_sec, (u64)now.tv_usec, PC);
    WRITES_TIME(t);
    *t = now;
    return 0;
}

time_t time(time_t *to) {
    struct timespec t;
    syscall(SYS_clock_gettime, CLOCK_REALTIME, &t);
    if (!IDLE) {
        struct tick_entry *e = world_expected(ANSWER, PC);
        if (e) t.tv_sec = (time_t)e->at;
        put_answer(ANSWER, (u64)t.tv_sec, 0, PC);
        WRITES_TIME(to);
    }
    if (to) *to = t.tv_sec;
    return t.tv_sec;
}

/* ---- by the linker's --wrap: dates ---- */

#define PARTS(name) \
    extern struct tm *__real_##name##_r(const time_t *, struct tm *), *__real_##name(const time_t *); \
    struct tm *__wrap_##name##_r(const time_t *t, struct tm *to) { \
        READS(t, sizeof *t), WRITES(to, sizeof *to); \
        return __real_##name##_r(t, to); \
    } \
    /* The answer lies in memory of the C library, the same for each call. */ \
    struct tm *__wrap_##name(const time_t *t) { \
        READS(t, sizeof *t), comes_to_call(); \
        struct tm *to = __real_##name(t); \
        wrote(to, to ? sizeof *to : 0, PC); \
        return to; \
    }
PARTS(localtime)
PARTS(gmtime)

#define PUTS_TOGETHER(name) \
    extern time_t __real_##name(struct tm *); \
    time_t __wrap_##name(struct tm *t) { \
        READS(t, sizeof *t), WRITES(t, sizeof *t); \
        return __real_##name(t); \
    }
PUTS_TOGETHER(mktime)
PUTS_TOGETHER(timegm)

/* A date in letters: 26 bytes, if the year has four figures. */
#define LETTERS(name, type) \
    extern char *__real_##name##_r(type, char *), *__real_##name(type); \
    char *__wrap_##name##_r(type t, char *to) { \
        READS(t, sizeof *t), comes_to_call(); \
        char *made = __real_##name##_r(t, to); \
        wrote(made, made ? __real_strlen(made) + 1 : 0, PC); \
        return made; \
    } \
    char *__wrap_##name(type t) { \
        READS(t, sizeof *t), comes_to_call(); \
        char *made = __real_##name(t); \
        wrote(made, made ? __real_strlen(made) + 1 : 0, PC); \
        return made; \
    }
LETTERS(asctime, const struct tm *)
LETTERS(ctime, const time_t *)

extern size_t __real_strftime(char *, size_t, const char *, const struct tm *);
size_t __wrap_strftime(char *to, size_t room, const char *f, const struct tm *t) {
    READS(f, __real_strlen(f) + 1), READS(t, sizeof *t), comes_to_call();
    size_t n = __real_strftime(to, room, f, t);
    wrote(to, n ? n + 1 : 0, PC);
    return n;
}
