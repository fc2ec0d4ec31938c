/* More calls of the C library that fill memory of the program, or that share memory of the library. Interposes
 * strptime, inet_aton, tmpnam, drand48, ecvt_r and their kin; not by --wrap, since some of their names make the linker
 * warn. Must not call them by their plain names, as in texts.c. */
#include "accesses.h"
#include "callers.h"
#include "events.h"
#include "fills.h"
#include "signals.h"
#include "texts.h"

#define FILLS_LATE(type, name, given, passed_on, before, at, size) \
    type name given { \
        static type(*real) given; \
        if (!real) real = (type(*) given)next(#name, NULL); \
        before; \
        comes_to_call(); \
        type answer = real passed_on; \
        wrote((at), (size), PC); \
        return answer; \
    }
FILLS_LATE(char *, strptime, (const char *s, const char *f, struct tm *to), (s, f, to),
           (READS(s, TEXT_AT(s)), READS(f, TEXT_AT(f))), to, answer ? sizeof *to : 0)
FILLS_LATE(int, inet_aton, (const char *s, struct in_addr *to), (s, to), READS(s, TEXT_AT(s)), to,
           answer &&to ? sizeof *to : 0)
FILLS_LATE(char *, tmpnam, (char to[L_tmpnam]), (to), , answer, answer ? L_tmpnam : 0)
FILLS_LATE(char *, tmpnam_r, (char to[L_tmpnam]), (to), , answer, answer ? L_tmpnam : 0)
FILLS_LATE(void *, memfrob, (void *to, size_t n), (to, n), READS(to, n), to, n)
FILLS_LATE(int, fstatat, (int d, const char *p, struct stat *to, int how), (d, p, to, how), READS(p, TEXT_AT(p)), to,
           answer ? 0 : sizeof *to)
FILLS_LATE(int, fstatat64, (int d, const char *p, struct stat64 *to, int how), (d, p, to, how), READS(p, TEXT_AT(p)),
           to, answer ? 0 : sizeof *to)
FILLS_LATE(int, sigorset, (sigset_t * to, const sigset_t *a, const sigset_t *b), (to, a, b),
           (READS(a, SIGNAL_WORD), READS(b, SIGNAL_WORD)), to, answer ? 0 : SIGNAL_WORD)
FILLS_LATE(int, sigandset, (sigset_t * to, const sigset_t *a, const sigset_t *b), (to, a, b),
           (READS(a, SIGNAL_WORD), READS(b, SIGNAL_WORD)), to, answer ? 0 : SIGNAL_WORD)
FILLS_LATE(int, sigisemptyset, (const sigset_t *set), (set), READS(set, SIGNAL_WORD), NULL, 0)

#define DIGITS_OF(name) \
    int name(double v, int digits, int *point, int *sign, char *to, size_t n) { \
        REAL(name, int, double, int, int *, int *, char *, size_t); \
        comes_to_call(); \
        int answer = real(v, digits, point, sign, to, n); \
        wrote(to, answer ? 0 : TEXT_AT(to), PC); \
        wrote(point, sizeof *point, PC), wrote(sign, sizeof *sign, PC); \
        return answer; \
    }
DIGITS_OF(ecvt_r)
DIGITS_OF(fcvt_r)

/* ---- what the C library keeps for all threads ---- */

/* Their names in a trace. */
static char chance_of_48[8] __asm__("drand48.state"), table_of_keys __asm__("hsearch.table");

#define DRAWS_48(type, name, given, passed_on) \
    type name given { \
        static type(*real) given; \
        if (!real) real = (type(*) given)next(#name, NULL); \
        READS(chance_of_48, sizeof chance_of_48), WRITES(chance_of_48, sizeof chance_of_48); \
        return real passed_on; \
    }
DRAWS_48(double, drand48, (void), ())
DRAWS_48(long, lrand48, (void), ())
DRAWS_48(long, mrand48, (void), ())

#define BEGINS_48(type, name, given, passed_on) \
    type name given { \
        static type(*real) given; \
        if (!real) real = (type(*) given)next(#name, NULL); \
        WRITES(chance_of_48, sizeof chance_of_48); \
        return real passed_on; \
    }
BEGINS_48(void, srand48, (long n), (n))
BEGINS_48(unsigned short *, seed48, (unsigned short n[3]), (n))
BEGINS_48(void, lcong48, (unsigned short n[7]), (n))

#define KEYS(type, name, given, passed_on, way) \
    type name given { \
        static type(*real) given; \
        if (!real) real = (type(*) given)next(#name, NULL); \
        way(&table_of_keys, 1); \
        return real passed_on; \
    }
KEYS(int, hcreate, (size_t n), (n), WRITES)
KEYS(void, hdestroy, (void), (), WRITES)

/* Makes an entry if there was no such entry. */
ENTRY *hsearch(ENTRY entry, ACTION what) {
    REAL(hsearch, ENTRY *, ENTRY, ACTION);
    READS(entry.key, TEXT_AT(entry.key)), READS(&table_of_keys, 1);
    if (what == ENTER) WRITES(&table_of_keys, 1);
    return real(entry, what);
}

/* The sign of the last result. */
WEAKLY int signgam;
#define SIGNS(name, type) \
    type name(type v) { \
        REAL(name, type, type); \
        if (&signgam) WRITES(&signgam, sizeof signgam); \
        return real(v); \
    }
SIGNS(lgamma, double)
SIGNS(lgammaf, float)
SIGNS(lgammal, long double)
SIGNS(gamma, double)
SIGNS(gammaf, float)
SIGNS(gammal, long double)

/* A path of C++ that another is added to: the library has its code, and no hooks. */
#define PATH_BYTES 40
#define ADDS_TO_PATH(name, given, passed_on, before) \
    WEAKLY void *__real_##name given; \
    void *__wrap_##name given { \
        before; \
        READS(path, PATH_BYTES), WRITES(path, PATH_BYTES); \
        return __real_##name passed_on; \
    }
ADDS_TO_PATH(_ZNSt10filesystem7__cxx114pathdVERKS1_, (void *path, const void *other), (path, other),
             READS(other, PATH_BYTES))
ADDS_TO_PATH(_ZNSt10filesystem7__cxx114path9_M_appendESt17basic_string_viewIcSt11char_traitsIcEE,
             (void *path, size_t n, const char *text), (path, n, text), READS(text, n))
ADDS_TO_PATH(_ZNSt10filesystem7__cxx114pathpLERKS1_, (void *path, const void *other), (path, other),
             READS(other, PATH_BYTES))
ADDS_TO_PATH(_ZNSt10filesystem7__cxx114path9_M_concatESt17basic_string_viewIcSt11char_traitsIcEE,
             (void *path, size_t n, const char *text), (path, n, text), READS(text, n))
