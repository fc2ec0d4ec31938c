/* Functions of the C library that go over memory of the program: texts, what is printed, what is sorted. The records
 * of what they read and write come before the call. Interposes, by the linker's --wrap, strlen, strcmp and their kin,
 * qsort, bsearch, and the printf family. Must not call these by their plain names: the recorder's own calls would be
 * recorded. */
#define OF_TEXTS
#include "texts.h"
#include "accesses.h"
#include "callers.h"
#include "channels.h"
#include "descriptors.h"
#include "heap.h"
#include "streams.h"

extern int __real_strcmp(const char *, const char *), __real_strncmp(const char *, const char *, size_t);
extern int __real_strcasecmp(const char *, const char *), __real_strncasecmp(const char *, const char *, size_t);
extern char *__real_strstr(const char *, const char *);
extern char *__real_strcpy(char *, const char *), *__real_stpcpy(char *, const char *);
extern char *__real_strncpy(char *, const char *, size_t), *__real_strcat(char *, const char *);
extern char *__real_strncat(char *, const char *, size_t);

static int lower(int c) { return c >= 'A' && c <= 'Z' ? c + 32 : c; }

/* How many bytes a comparison goes over. */
static size_t compared(const char *a, const char *b, size_t most, int folds) {
    size_t n = 0;
    while (n < most && a[n] && (folds ? lower(a[n]) == lower(b[n]) : a[n] == b[n])) n++;
    return n < most ? n + 1 : most;
}

/* How many bytes of a text are read, of which at most `most` are looked at. */
static size_t read_of(const char *s, size_t most) {
    size_t n = __real_strnlen(s, most);
    return n < most ? n + 1 : most;
}

size_t __wrap_strlen(const char *s) {
    READS(s, __real_strlen(s) + 1);
    return __real_strlen(s);
}

size_t __wrap_strnlen(const char *s, size_t most) {
    READS(s, read_of(s, most));
    return __real_strnlen(s, most);
}

#define COMPARES(name, given, passed_on, most, folds) \
    int __wrap_##name given { \
        READS(a, compared(a, b, most, folds)), READS(b, compared(a, b, most, folds)); \
        return __real_##name passed_on; \
    }
COMPARES(strcmp, (const char *a, const char *b), (a, b), ~0ul, 0)
COMPARES(strcasecmp, (const char *a, const char *b), (a, b), ~0ul, 1)
COMPARES(strncmp, (const char *a, const char *b, size_t n), (a, b, n), n, 0)
COMPARES(strncasecmp, (const char *a, const char *b, size_t n), (a, b, n), n, 1)

int __wrap_memcmp(const void *a, const void *b, size_t n) {
    READS(a, n), READS(b, n);
    return __real_memcmp(a, b, n);
}

/* How far a search goes that found something so far into what it may go over. */
static size_t searched(const void *from, const void *found_at, size_t beyond, size_t all) {
    return found_at ? (size_t)((const char *)found_at - (const char *)from) + beyond : all;
}

void *__wrap_memchr(const void *s, int c, size_t n) {
    READS(s, searched(s, __real_memchr(s, c, n), 1, n));
    return __real_memchr(s, c, n);
}

char *__wrap_strchr(const char *s, int c) {
    READS(s, searched(s, __real_strchr(s, c), 1, __real_strlen(s) + 1));
    return __real_strchr(s, c);
}

char *__wrap_strrchr(const char *s, int c) {
    READS(s, __real_strlen(s) + 1);
    return __real_strrchr(s, c);
}

char *__wrap_strstr(const char *s, const char *part) {
    READS(part, __real_strlen(part) + 1);
    READS(s, searched(s, __real_strstr(s, part), __real_strlen(part), __real_strlen(s) + 1));
    return __real_strstr(s, part);
}

#define COPIES(name) \
    char *__wrap_##name(char *to, const char *from) { \
        if (!IDLE) copied(to, from, __real_strlen(from) + 1, PC); \
        return __real_##name(to, from); \
    }
COPIES(strcpy)
COPIES(stpcpy)

char *__wrap_strncpy(char *to, const char *from, size_t n) {
    READS(from, read_of(from, n)), WRITES(to, n);
    return __real_strncpy(to, from, n);
}

char *__wrap_strcat(char *to, const char *from) {
    READS(to, __real_strlen(to) + 1);
    if (!IDLE) copied(to + __real_strlen(to), from, __real_strlen(from) + 1, PC);
    return __real_strcat(to, from);
}

char *__wrap_strncat(char *to, const char *from, size_t n) {
    READS(to, __real_strlen(to) + 1), READS(from, read_of(from, n));
    WRITES(to + __real_strlen(to), __real_strnlen(from, n) + 1);
    return __real_strncat(to, from, n);
}

/* A new text, of `n` bytes and an end. */
static char *text_of(const char *s, size_t n, u64 pc) {
    char *made = got(__libc_malloc(n + 1), n + 1, pc);
    if (!made) return NULL;
    copied(made, s, n, pc);
    __real_memcpy(made, s, n);
    access_(WRITE, made + n, 1, pc);
    made[n] = 0;
    return made;
}
char *__wrap_strdup(const char *s) { return text_of(s, __real_strlen(s), PC); }
char *__wrap_strndup(const char *s, size_t n) { return text_of(s, __real_strnlen(s, n), PC); }

void __wrap_bzero(void *to, size_t n) {
    WRITES(to, n);
    __real_memset(to, 0, n);
}

void *__wrap_mempcpy(void *to, const void *from, size_t n) {
    copied(to, from, n, PC);
    return (char *)__real_memcpy(to, from, n) + n;
}

extern void __real_qsort(void *, size_t, size_t, int (*)(const void *, const void *));
void __wrap_qsort(void *first, size_t count, size_t size, int (*compare)(const void *, const void *)) {
    READS(first, count * size), WRITES(first, count * size);
    IN_LIBRARY(__real_qsort(first, count, size, compare));
}

typedef int compares_with(const void *, const void *, void *);
extern void __real_qsort_r(void *, size_t, size_t, compares_with *, void *);
void __wrap_qsort_r(void *first, size_t count, size_t size, compares_with *compare, void *with) {
    READS(first, count * size), WRITES(first, count * size);
    IN_LIBRARY(__real_qsort_r(first, count, size, compare, with));
}

/* Searches call back into the program, which reads what it compares. A tree is in memory of the C library: where it
 * begins represents all of it, and a search that may add to it turns it too. */
typedef int compares(const void *, const void *);
extern void *__real_bsearch(const void *, const void *, size_t, size_t, compares *);
void *__wrap_bsearch(const void *key, const void *first, size_t count, size_t size, compares *compare) {
    return IN_LIBRARY(__real_bsearch(key, first, count, size, compare));
}
extern void *__real_lfind(const void *, const void *, size_t *, size_t, compares *);
void *__wrap_lfind(const void *key, const void *first, size_t *count, size_t size, compares *compare) {
    READS(count, sizeof *count);
    return IN_LIBRARY(__real_lfind(key, first, count, size, compare));
}
extern void *__real_lsearch(const void *, void *, size_t *, size_t, compares *);
void *__wrap_lsearch(const void *key, void *first, size_t *count, size_t size, compares *compare) {
    READS(count, sizeof *count);
    size_t before = *count;
    void *found = IN_LIBRARY(__real_lsearch(key, first, count, size, compare));
    if (*count != before) READS(key, size), wrote(found, size, PC), wrote(count, sizeof *count, PC);
    return found;
}
#define OF_TREE(name, qualified, goes_over) \
    extern void *__real_##name(const void *, qualified, compares *); \
    void *__wrap_##name(const void *key, qualified root, compares *compare) { \
        if (root) goes_over; \
        return IN_LIBRARY(__real_##name(key, root, compare)); \
    }
OF_TREE(tfind, void *const *, READS(root, sizeof *root))
OF_TREE(tsearch, void **, (READS(root, sizeof *root), WRITES(root, sizeof *root)))
OF_TREE(tdelete, void **, (READS(root, sizeof *root), WRITES(root, sizeof *root)))

/* ---- what is printed: a format reads its texts, and what is printed into memory writes there ---- */

extern int __real_vprintf(const char *, va_list), __real_vfprintf(FILE *, const char *, va_list);
extern int __real_vsprintf(char *, const char *, va_list), __real_vsnprintf(char *, size_t, const char *, va_list);
extern int __real_vdprintf(int, const char *, va_list);

/* One part of a format: how many `l` its length has, whether it is of a long double, the most bytes of its text. */
struct part {
    int longs, is_wide, is_known;
    long most;
};

static const char *number_in(const char *f, va_list *words, long *to) {
    long n = -1;
    if (*f == '*') n = va_arg(*words, int), f++;
    else
        for (; *f >= '0' && *f <= '9'; f++) n = (n < 0 ? 0 : n > 1 << 24 ? n : n * 10) + *f - '0';
    *to = n;
    return f;
}

/* Reads a part as far as the letter of its kind. One that says the place of its value is not known. */
static const char *read_part(const char *f, va_list *words, struct part *p) {
    long width;
    *p = (struct part){0, 0, 1, -1};
    while (*f && __real_strchr("-+ #0'I", *f)) f++;
    f = number_in(f, words, &width);
    if (*f == '.') {
        f = number_in(f + 1, words, &p->most);
        if (p->most < 0) p->most = 0;
    }
    for (; *f && __real_strchr("hlLqjzt", *f); f++) p->longs += *f != 'h' && *f != 'L', p->is_wide |= *f == 'L';
    p->is_known = *f && *f != '$';
    return f;
}

static void read_text(const char *s, long most, u64 pc) {
    if (s) access_(READ, s, most < 0 ? __real_strlen(s) + 1 : read_of(s, (size_t)most), pc);
}

/* The texts that a format reads; none after an unknown conversion. */
static void read_texts(const char *f, va_list given, u64 pc) {
    va_list words;
    struct part p = {.is_known = 1};
    if (IDLE) return;
    va_copy(words, given);
    while (p.is_known && (f = __real_strchr(f, '%'))) {
        f = read_part(f + 1, &words, &p);
        if (!p.is_known) break;
        if (*f == 's' && !p.longs) read_text(va_arg(words, const char *), p.most, pc);
        else if (__real_strchr("diuxXoc", *f)) p.longs ? (void)va_arg(words, long) : (void)va_arg(words, int);
        else if (__real_strchr("eEfFgGaA", *f))
            p.is_wide ? (void)va_arg(words, long double) : (void)va_arg(words, double);
        else if (__real_strchr("pnsS", *f)) (void)va_arg(words, void *);
        else p.is_known = *f == '%' || *f == 'm';
        f++;
    }
    va_end(words);
}

/* What is printed into memory, with its end. */
static void prints_into(char *to, size_t room, const char *f, va_list given, u64 pc) {
    va_list words;
    if (IDLE) return;
    read_texts(f, given, pc);
    va_copy(words, given);
    int n = __real_vsnprintf(NULL, 0, f, words);
    va_end(words);
    if (n >= 0 && room) access_(WRITE, to, (size_t)n < room ? (size_t)n + 1 : room, pc);
}

#define PRINTS(name, given, before, behind, passed_on) \
    int __wrap_v##name(given const char *f, va_list words) { \
        before; \
        int printed = __real_v##name passed_on; \
        behind; \
        return printed; \
    } \
    int __wrap_##name(given const char *f, ...) { \
        va_list words; \
        va_start(words, f); \
        before; \
        int printed = __real_v##name passed_on; \
        va_end(words); \
        behind; \
        return printed; \
    }
#define AND ,
PRINTS(printf, , (read_texts(f, words, PC), sends_stream(stdout, PC)), sent_stream(stdout), (f, words))
PRINTS(fprintf, FILE *to AND, (read_texts(f, words, PC), sends_stream(to, PC)), sent_stream(to), (to, f, words))
PRINTS(dprintf, int to AND, (read_texts(f, words, PC), sends(to, PC)), sent(to, 0), (to, f, words))
PRINTS(sprintf, char *to AND, prints_into(to, ~0ul, f, words, PC), , (to, f, words))
PRINTS(snprintf, char *to AND size_t n AND, prints_into(to, n, f, words, PC), , (to, n, f, words))
#undef AND

extern int __real_puts(const char *), __real_fputs(const char *, FILE *);
int __wrap_puts(const char *s) {
    READS(s, __real_strlen(s) + 1);
    sends_stream(stdout, PC);
    int answer = __real_puts(s);
    sent_stream(stdout);
    return answer;
}
int __wrap_fputs(const char *s, FILE *to) {
    READS(s, __real_strlen(s) + 1);
    sends_stream(to, PC);
    int answer = __real_fputs(s, to);
    sent_stream(to);
    return answer;
}

/* ---- streams: what was read is known afterwards ---- */

extern size_t __real_fread(void *, size_t, size_t, FILE *), __real_fwrite(const void *, size_t, size_t, FILE *);
extern char *__real_fgets(char *, int, FILE *);
size_t __wrap_fwrite(const void *from, size_t size, size_t count, FILE *to) {
    READS(from, size * count);
    sends_stream(to, PC);
    size_t n = __real_fwrite(from, size, count, to);
    sent_stream(to);
    return n;
}
size_t __wrap_fread(void *to, size_t size, size_t count, FILE *from) {
    comes_to_call(), awaits_stream(from, size * count, NO_END);
    size_t n = __real_fread(to, size, count, from);
    received_stream(from, PC), wrote(to, n * size, PC);
    return n;
}
char *__wrap_fgets(char *to, int n, FILE *from) {
    comes_to_call(), awaits_stream(from, n > 1 ? (size_t)n - 1 : 0, '\n');
    char *line = __real_fgets(to, n, from);
    received_stream(from, PC), wrote(to, line ? __real_strlen(to) + 1 : 0, PC);
    return line;
}
