/* More functions of the C library that go over texts: those that cut them, and those that look for letters of a set.
 * Interposes, by the linker's --wrap, strspn, strtok, strsep, memmem, asprintf and their kin. Must not call them by
 * their plain names, as in texts.c. */
#include "accesses.h"
#include "callers.h"
#include "descriptors.h"
#include "texts.h"

extern size_t __real_strspn(const char *, const char *), __real_strcspn(const char *, const char *);
extern char *__real_strpbrk(const char *, const char *), *__real_strcasestr(const char *, const char *);
extern char *__real_strchrnul(const char *, int), *__real_stpncpy(char *, const char *, size_t);
extern void *__real_memrchr(const void *, int, size_t), *__real_rawmemchr(const void *, int);
extern void *__real_memmem(const void *, size_t, const void *, size_t);
extern int __real_bcmp(const void *, const void *, size_t), __real_strcoll(const char *, const char *);
extern size_t __real_strxfrm(char *, const char *, size_t);
WEAKLY size_t __real_strlcpy(char *, const char *, size_t), __real_strlcat(char *, const char *, size_t);

#define READS_TEXT(s) READS(s, __real_strlen(s) + 1)

/* ---- letters of a set ---- */

#define SPANS(name) \
    size_t __wrap_##name(const char *s, const char *set) { \
        READS_TEXT(set), READS(s, __real_##name(s, set) + 1); \
        return __real_##name(s, set); \
    }
SPANS(strspn)
SPANS(strcspn)

char *__wrap_strpbrk(const char *s, const char *set) {
    READS_TEXT(set), READS(s, __real_strcspn(s, set) + 1);
    return __real_strpbrk(s, set);
}

char *__wrap_strcasestr(const char *s, const char *part) {
    READS_TEXT(part);
    READS(s, searched(s, __real_strcasestr(s, part), __real_strlen(part), __real_strlen(s) + 1));
    return __real_strcasestr(s, part);
}

char *__wrap_strchrnul(const char *s, int c) {
    READS(s, searched(s, __real_strchrnul(s, c), 1, 0));
    return __real_strchrnul(s, c);
}

/* From the end on. */
void *__wrap_memrchr(const void *s, int c, size_t n) {
    const char *at = IDLE ? NULL : __real_memrchr(s, c, n), *from = at ? at : s;
    READS(from, n - (size_t)(from - (const char *)s));
    return __real_memrchr(s, c, n);
}

void *__wrap_rawmemchr(const void *s, int c) {
    READS(s, searched(s, __real_rawmemchr(s, c), 1, 0));
    return __real_rawmemchr(s, c);
}

void *__wrap_memmem(const void *s, size_t n, const void *part, size_t m) {
    READS(part, m), READS(s, searched(s, __real_memmem(s, n, part, m), m, n));
    return __real_memmem(s, n, part, m);
}

int __wrap_bcmp(const void *a, const void *b, size_t n) {
    READS(a, n), READS(b, n);
    return __real_memcmp(a, b, n);
}

int __wrap_strcoll(const char *a, const char *b) {
    READS_TEXT(a), READS_TEXT(b);
    return __real_strcoll(a, b);
}

size_t __wrap_strxfrm(char *to, const char *from, size_t room) {
    READS_TEXT(from);
    size_t n = __real_strxfrm(NULL, from, 0);
    if (room) WRITES(to, n < room ? n + 1 : room);
    return __real_strxfrm(to, from, room);
}

/* ---- copies that are cut ---- */

char *__wrap_stpncpy(char *to, const char *from, size_t n) {
    READS(from, read_of(from, n)), WRITES(to, n);
    return __real_stpncpy(to, from, n);
}

/* Reads no end if the text is as long as the room. */
size_t __wrap_strlcpy(char *to, const char *from, size_t room) {
    READS_TEXT(from);
    size_t n = __real_strlen(from);
    if (room) WRITES(to, n < room ? n + 1 : room);
    return __real_strlcpy(to, from, room);
}

size_t __wrap_strlcat(char *to, const char *from, size_t room) {
    READS(to, read_of(to, room)), READS_TEXT(from);
    size_t there = __real_strnlen(to, room), n = __real_strlen(from);
    if (there < room) WRITES(to + there, n < room - there ? n + 1 : room - there);
    return __real_strlcat(to, from, room);
}

extern void *__real_memccpy(void *, const void *, int, size_t);
void *__wrap_memccpy(void *to, const void *from, int c, size_t n) {
    size_t size = IDLE ? 0 : searched(from, __real_memchr(from, c, n), 1, n);
    READS(from, size), WRITES(to, size);
    return __real_memccpy(to, from, c, n);
}

extern void __real_bcopy(const void *, void *, size_t), __real_explicit_bzero(void *, size_t);
void __wrap_bcopy(const void *from, void *to, size_t n) {
    if (!IDLE) copied(to, from, n, PC);
    __real_memmove(to, from, n);
}
void __wrap_explicit_bzero(void *to, size_t n) {
    WRITES(to, n);
    __real_explicit_bzero(to, n);
}

/* ---- texts that are cut into words: an end is written into the text ---- */

static char *word_of(char *s, const char *ends, char **place, u64 pc) {
    access_(READ, ends, __real_strlen(ends) + 1, pc);
    if (!s) access_(READ, place, sizeof *place, pc), s = *place;
    if (!s) return NULL;
    size_t skipped = __real_strspn(s, ends), n = __real_strcspn(s + skipped, ends);
    access_(READ, s, skipped + n + 1, pc);
    char *end = s + skipped + n;
    if (n && *end) access_(WRITE, end, 1, pc), *end++ = 0;
    access_(WRITE, place, sizeof *place, pc);
    *place = end;
    return n ? s + skipped : NULL;
}

extern char *__real_strtok_r(char *, const char *, char **), *__real_strsep(char **, const char *);
char *__wrap_strtok_r(char *s, const char *ends, char **place) {
    return IDLE ? __real_strtok_r(s, ends, place) : word_of(s, ends, place, PC);
}

/* All threads have one place. */
static char *strtok_place;
char *__wrap_strtok(char *s, const char *ends) {
    return IDLE ? __real_strtok_r(s, ends, &strtok_place) : word_of(s, ends, &strtok_place, PC);
}

char *__wrap_strsep(char **at, const char *ends) {
    READS(at, sizeof *at);
    if (!*at) return NULL;
    READS_TEXT(ends), READS(*at, __real_strcspn(*at, ends) + 1);
    char *end = *at + __real_strcspn(*at, ends);
    if (*end) WRITES(end, 1);
    WRITES(at, sizeof *at);
    return __real_strsep(at, ends);
}

/* ---- texts of their own, made by a format ---- */

extern int __real_vasprintf(char **, const char *, va_list);
static int prints_own(char **to, const char *f, va_list words, u64 pc) {
    read_texts(f, words, pc);
    comes_to_call();
    int n = __real_vasprintf(to, f, words);
    wrote(to, sizeof *to, pc), wrote(*to, n < 0 ? 0 : (u64)n + 1, pc);
    return n;
}
int __wrap_vasprintf(char **to, const char *f, va_list words) { return prints_own(to, f, words, PC); }
int __wrap_asprintf(char **to, const char *f, ...) {
    va_list words;
    va_start(words, f);
    int n = prints_own(to, f, words, PC);
    va_end(words);
    return n;
}

extern void __real_perror(const char *);
void __wrap_perror(const char *s) {
    if (s) READS_TEXT(s);
    __real_perror(s);
}
