/* Letters and texts that become others, patterns that are looked for, and addresses that are looked up: what the calls
 * read and write is used by another thread. */
#define _GNU_SOURCE
#include <netdb.h>
#include <pthread.h>
#include <regex.h>
#include <stdio.h>
#include <stdlib.h>
#include <sys/socket.h>
#include <wchar.h>
static char a[8] = "abc", b[8] = "bcd", c[8], d[8], e[8] = "ef", f[8];
static char host[16] = "127.0.0.1", line[16] = "say 12 words", pattern[16] = "([0-9])([0-9])";
static wchar_t wide_a, wide_b, wide_e[8], wide_f[8] = L"fg";
static const char *from_e = e;
static const wchar_t *from_f = wide_f;
static mbstate_t state_e;
static struct addrinfo hints = {.ai_flags = AI_NUMERICHOST, .ai_family = AF_INET, .ai_socktype = SOCK_STREAM}, *found;
static regex_t compiled, used, freed;
static regmatch_t match[3];
static __thread volatile long n;

static void *calls(void *p) {
    mbstate_t state = {0};
    n += mbtowc(&wide_a, a, 4); /* RACE a */
    n += (long)mbrtowc(&wide_b, b, 4, &state); /* RACE b */
    n += wctomb(c, L'c'); /* RACE c */
    n += (long)wcrtomb(d, L'd', &state); /* RACE d */
    n += (long)mbsrtowcs(wide_e, &from_e, 8, &state_e); /* RACE e */
    n += (long)wcsrtombs(f, &from_f, 8, &state); /* RACE f */
    n += getaddrinfo(host, NULL, &hints, &found); /* RACE g */
    n += regcomp(&compiled, pattern, REG_EXTENDED); /* RACE h */
    n += regexec(&used, line, 3, match, 0); /* RACE i */
    regfree(&freed); /* RACE j */
    return p;
}

static void *uses(void *p) {
    n += wide_a; /* RACE a */
    a[0] = 'A'; /* RACE a */
    n += wide_b; /* RACE b */
    b[0] = 'B'; /* RACE b */
    n += c[0]; /* RACE c */
    n += d[0]; /* RACE d */
    e[1] = 'F'; /* RACE e */
    n += wide_e[2]; /* RACE e */
    n += from_e != NULL; /* RACE e */
    n += from_f != NULL; /* RACE f */
    n += f[2]; /* RACE f */
    wide_f[1] = L'G'; /* RACE f */
    host[8] = '2'; /* RACE g */
    hints.ai_flags = AI_NUMERICHOST; /* RACE g */
    n += found != NULL; /* RACE g */
    pattern[0] = '('; /* RACE h */
    n += (long)compiled.re_nsub; /* RACE h */
    line[0] = 'S'; /* RACE i */
    n += match[2].rm_eo; /* RACE i */
    n += freed.buffer != NULL; /* RACE j */
    a[1] = b[1] = c[1] = d[1] = f[3] = 'z', n += wide_e[3];
    return p;
}

int main(void) {
    pthread_t t[2];
    if (regcomp(&used, pattern, REG_EXTENDED) || regcomp(&freed, pattern, REG_EXTENDED)) abort();
    pthread_create(&t[0], NULL, calls, NULL);
    pthread_create(&t[1], NULL, uses, NULL);
    for (int k = 0; k < 2; k++) pthread_join(t[k], NULL);
    printf("%d %d %c %c %d\n", (int)wide_e[0], from_e == NULL, c[0], d[0], found != NULL);
    regfree(&used), regfree(&compiled), freeaddrinfo(found);
    return 0;
}
