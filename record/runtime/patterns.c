/* Patterns of texts, and names of hosts and of users. Interposes regcomp, regexec, regfree, getpwnam, gethostbyname
 * and, by the linker's --wrap, getaddrinfo. Must not record a call of another library's function of the same name,
 * whose pattern has another size. */
#include "accesses.h"
#include "callers.h"
#include "clocks.h"
#include "events.h"
#include "fills.h"
#include "texts.h"
#include <netdb.h>
#include <pwd.h>
#include <regex.h>

/* ---- regular expressions. Other libraries have functions with the same names, with patterns of another size. ---- */

static int is_seen(const void *real, u64 from) {
    return !IDLE && (u64)real - c_library.start < c_library.size && is_of_program(from);
}
#define IS_SEEN is_seen((const void *)real, (u64)__builtin_return_address(0))

int regcomp(regex_t *to, const char *pattern, int how) {
    REAL(regcomp, int, regex_t *, const char *, int);
    if (!IS_SEEN) return real(to, pattern, how);
    READS(pattern, __real_strlen(pattern) + 1);
    int answer = real(to, pattern, how);
    wrote(to, sizeof *to, PC);
    return answer;
}

/* With REG_STARTEND the first match says where the text begins and ends. */
int regexec(const regex_t *compiled, const char *s, size_t n, regmatch_t to[n], int how) {
    REAL(regexec, int, const regex_t *, const char *, size_t, regmatch_t *, int);
    if (!IS_SEEN) return real(compiled, s, n, to, how);
    READS(compiled, sizeof *compiled);
    if (how & REG_STARTEND) {
        READS(to, sizeof *to);
        READS(s + to->rm_so, to->rm_eo > to->rm_so ? (u64)(to->rm_eo - to->rm_so) : 0);
    } else READS(s, __real_strlen(s) + 1);
    int finds = !compiled->no_sub, answer = real(compiled, s, n, to, how);
    wrote(to, finds && !answer ? n * sizeof *to : 0, PC);
    return answer;
}

void regfree(regex_t *of) {
    REAL(regfree, void, regex_t *);
    if (IS_SEEN) WRITES(&of->buffer, sizeof of->buffer);
    real(of);
}

/* ---- names of hosts, by the linker's --wrap: the answers are blocks of the program ---- */

WEAKLY int __real_getaddrinfo(const char *, const char *, const struct addrinfo *, struct addrinfo **);
int __wrap_getaddrinfo(const char *host, const char *service, const struct addrinfo *hints, struct addrinfo **to) {
    if (host) READS(host, __real_strlen(host) + 1);
    if (service) READS(service, __real_strlen(service) + 1);
    if (hints) READS(hints, offsetof(struct addrinfo, ai_addrlen));
    comes_to_call();
    int answer = __real_getaddrinfo(host, service, hints, to);
    wrote(to, answer ? 0 : sizeof *to, PC);
    for (struct addrinfo *a = answer || IDLE ? NULL : *to; a; a = a->ai_next) {
        wrote(a, sizeof *a, PC), wrote(a->ai_addr, a->ai_addr ? a->ai_addrlen : 0, PC);
        if (a->ai_canonname) wrote(a->ai_canonname, __real_strlen(a->ai_canonname) + 1, PC);
    }
    return answer;
}

/* What is known of a user: the texts lie in the room that the caller gives. */
static void wrote_user(int answer, struct passwd **found, u64 pc) {
    wrote(found, sizeof *found, pc);
    struct passwd *user = answer || IDLE ? NULL : *found;
    if (!user) return;
    wrote(user, sizeof *user, pc);
    const char *texts[] = {user->pw_name, user->pw_passwd, user->pw_gecos, user->pw_dir, user->pw_shell};
    for (size_t k = 0; k < sizeof texts / sizeof *texts; k++)
        if (texts[k]) wrote(texts[k], __real_strlen(texts[k]) + 1, pc);
}
#define LOOKS_UP_USER(name, type, before) \
    WEAKLY int __real_##name(type, struct passwd *, char *, size_t, struct passwd **); \
    int __wrap_##name(type by, struct passwd *to, char *room, size_t n, struct passwd **found) { \
        before; \
        comes_to_call(); \
        int answer = __real_##name(by, to, room, n, found); \
        wrote_user(answer, found, PC); \
        return answer; \
    }
LOOKS_UP_USER(getpwnam_r, const char *, READS(by, __real_strlen(by) + 1))
LOOKS_UP_USER(getpwuid_r, uid_t, )

/* The answer lies in memory of the C library, the same for each call. */
#define LOOKS_UP(type, name, by_type, before) \
    FILLS(struct type *, name, (by_type by), (by), before, answer, answer ? sizeof *answer : 0)
#define READS_NAME READS(by, __real_strlen(by) + 1)
LOOKS_UP(passwd, getpwnam, const char *, READS_NAME)
LOOKS_UP(passwd, getpwuid, uid_t, )
LOOKS_UP(hostent, gethostbyname, const char *, READS_NAME)
