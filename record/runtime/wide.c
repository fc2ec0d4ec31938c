/* Functions of wide characters; `n` counts letters. Interposes wcslen, wcscmp, wmemcpy, mbstowcs, swprintf and their
 * kin by the linker's --wrap. Must not call them by their plain names, as in texts.c. */
#define OF_WIDE
#include "wide.h"
#include "accesses.h"
#include "callers.h"
#include "texts.h"
#include <wchar.h>

extern size_t __real_wcslen(const wchar_t *), __real_wcsnlen(const wchar_t *, size_t);
extern int __real_wcscmp(const wchar_t *, const wchar_t *), __real_wcsncmp(const wchar_t *, const wchar_t *, size_t);
extern int __real_wmemcmp(const wchar_t *, const wchar_t *, size_t);
extern wchar_t *__real_wmemchr(const wchar_t *, wchar_t, size_t), *__real_wcschr(const wchar_t *, wchar_t);
extern wchar_t *__real_wcscpy(wchar_t *, const wchar_t *), *__real_wcsncpy(wchar_t *, const wchar_t *, size_t);
extern wchar_t *__real_wcscat(wchar_t *, const wchar_t *);
extern wchar_t *__real_wmemcpy(wchar_t *, const wchar_t *, size_t),
    *__real_wmemmove(wchar_t *, const wchar_t *, size_t);
extern wchar_t *__real_wmemset(wchar_t *, wchar_t, size_t);

#define LETTERS_OF(n) ((n) * sizeof(wchar_t))
#define READS_WIDE(s) READS(s, LETTERS_OF(__real_wcslen(s) + 1))

/* How many bytes a comparison goes over. */
static size_t compared_wide(const wchar_t *a, const wchar_t *b, size_t most) {
    size_t n = 0;
    while (n < most && a[n] && a[n] == b[n]) n++;
    return LETTERS_OF(n < most ? n + 1 : most);
}

size_t __wrap_wcslen(const wchar_t *s) {
    READS_WIDE(s);
    return __real_wcslen(s);
}

size_t __wrap_wcsnlen(const wchar_t *s, size_t most) {
    size_t n = __real_wcsnlen(s, most);
    READS(s, LETTERS_OF(n < most ? n + 1 : most));
    return __real_wcsnlen(s, most);
}

#define COMPARES_WIDE(name, given, passed_on, most) \
    int __wrap_##name given { \
        READS(a, compared_wide(a, b, most)), READS(b, compared_wide(a, b, most)); \
        return __real_##name passed_on; \
    }
COMPARES_WIDE(wcscmp, (const wchar_t *a, const wchar_t *b), (a, b), ~0ul)
COMPARES_WIDE(wcsncmp, (const wchar_t *a, const wchar_t *b, size_t n), (a, b, n), n)

int __wrap_wmemcmp(const wchar_t *a, const wchar_t *b, size_t n) {
    READS(a, LETTERS_OF(n)), READS(b, LETTERS_OF(n));
    return __real_wmemcmp(a, b, n);
}

wchar_t *__wrap_wmemchr(const wchar_t *s, wchar_t c, size_t n) {
    READS(s, searched(s, __real_wmemchr(s, c, n), sizeof c, LETTERS_OF(n)));
    return __real_wmemchr(s, c, n);
}

wchar_t *__wrap_wcschr(const wchar_t *s, wchar_t c) {
    READS(s, searched(s, __real_wcschr(s, c), sizeof c, LETTERS_OF(__real_wcslen(s) + 1)));
    return __real_wcschr(s, c);
}

wchar_t *__wrap_wcscpy(wchar_t *to, const wchar_t *from) {
    if (!IDLE) copied(to, from, LETTERS_OF(__real_wcslen(from) + 1), PC);
    return __real_wcscpy(to, from);
}

wchar_t *__wrap_wcsncpy(wchar_t *to, const wchar_t *from, size_t n) {
    size_t there = __real_wcsnlen(from, n);
    READS(from, LETTERS_OF(there < n ? there + 1 : n)), WRITES(to, LETTERS_OF(n));
    return __real_wcsncpy(to, from, n);
}

wchar_t *__wrap_wcscat(wchar_t *to, const wchar_t *from) {
    READS_WIDE(to);
    if (!IDLE) copied(to + __real_wcslen(to), from, LETTERS_OF(__real_wcslen(from) + 1), PC);
    return __real_wcscat(to, from);
}

wchar_t *__wrap_wmemcpy(wchar_t *to, const wchar_t *from, size_t n) {
    copied(to, from, LETTERS_OF(n), PC);
    return __real_wmemcpy(to, from, n);
}

wchar_t *__wrap_wmemmove(wchar_t *to, const wchar_t *from, size_t n) {
    copied(to, from, LETTERS_OF(n), PC);
    return __real_wmemmove(to, from, n);
}

wchar_t *__wrap_wmemset(wchar_t *to, wchar_t c, size_t n) {
    WRITES(to, LETTERS_OF(n));
    return __real_wmemset(to, c, n);
}

/* Texts of the one kind that become texts of the other. An answer of -1 is no count: what was written is not known. */
extern size_t __real_mbstowcs(wchar_t *, const char *, size_t), __real_wcstombs(char *, const wchar_t *, size_t);
static size_t with_end(size_t count, size_t most) { return count == ~0ul ? 0 : count < most ? count + 1 : most; }

size_t __wrap_mbstowcs(wchar_t *to, const char *from, size_t n) {
    READS(from, __real_strlen(from) + 1);
    size_t count = __real_mbstowcs(to, from, n);
    wrote(to, to ? LETTERS_OF(with_end(count, n)) : 0, PC);
    return count;
}

size_t __wrap_wcstombs(char *to, const wchar_t *from, size_t n) {
    READS_WIDE(from);
    size_t count = __real_wcstombs(to, from, n);
    wrote(to, to ? with_end(count, n) : 0, PC);
    return count;
}

extern int __real_vswprintf(wchar_t *, size_t, const wchar_t *, va_list);
static int printed_wide(wchar_t *to, size_t n, const wchar_t *format, va_list words, u64 pc) {
    comes_to_call();
    int count = __real_vswprintf(to, n, format, words);
    wrote(to, count < 0 ? 0 : LETTERS_OF((size_t)count + 1), pc);
    return count;
}
int __wrap_vswprintf(wchar_t *to, size_t n, const wchar_t *format, va_list words) {
    return printed_wide(to, n, format, words, PC);
}
int __wrap_swprintf(wchar_t *to, size_t n, const wchar_t *format, ...) {
    va_list words;
    va_start(words, format);
    int count = printed_wide(to, n, format, words, PC);
    va_end(words);
    return count;
}

/* ---- one letter, or a text, of the one kind that becomes one of the other. What was read of a text is known when it
 * has been converted; what is kept of a letter that is not yet whole is written where it changed. ---- */

/* What is kept between calls: that of the caller, or nothing if it is the C library's. */
struct kept {
    mbstate_t *at, before;
    u64 pc;
};
static struct kept keep(mbstate_t *state, u64 pc) {
    struct kept k = {state, {0}, pc};
    comes_to_call();
    if (state) went_over(state, sizeof *state, pc), k.before = *state;
    return k;
}
static void kept(const struct kept *k) {
    if (k->at && __real_memcmp(k->at, &k->before, sizeof k->before)) wrote(k->at, sizeof *k->at, k->pc);
}
/* The bytes of a letter, by the answer of a call that gives their number; one that is an end has one. */
static size_t bytes_of(size_t answer, size_t most) { return answer <= most ? answer ? answer : 1 : 0; }

WEAKLY int __real_mbtowc(wchar_t *, const char *, size_t), __real_wctomb(char *, wchar_t);
WEAKLY size_t __real_mbrtowc(wchar_t *, const char *, size_t, mbstate_t *);
WEAKLY size_t __real_wcrtomb(char *, wchar_t, mbstate_t *);
int __wrap_mbtowc(wchar_t *to, const char *from, size_t n) {
    comes_to_call();
    int answer = __real_mbtowc(to, from, n);
    if (from && answer >= 0) went_over(from, bytes_of((size_t)answer, n), PC);
    wrote(to, to && from && answer >= 0 ? sizeof *to : 0, PC);
    return answer;
}
int __wrap_wctomb(char *to, wchar_t letter) {
    comes_to_call();
    int answer = __real_wctomb(to, letter);
    wrote(to, to && answer > 0 ? (u64)answer : 0, PC);
    return answer;
}
size_t __wrap_mbrtowc(wchar_t *to, const char *from, size_t n, mbstate_t *state) {
    struct kept k = keep(state, PC);
    size_t answer = __real_mbrtowc(to, from, n, state);
    if (from) went_over(from, answer == (size_t)-2 ? n : bytes_of(answer, n), PC);
    wrote(to, to && from && answer <= n ? sizeof *to : 0, PC), kept(&k);
    return answer;
}
size_t __wrap_wcrtomb(char *to, wchar_t letter, mbstate_t *state) {
    struct kept k = keep(state, PC);
    size_t answer = __real_wcrtomb(to, letter, state);
    wrote(to, to && answer <= MB_LEN_MAX ? answer : 0, PC), kept(&k);
    return answer;
}

/* The place of the text goes on when something is written, and is NULL at the text's end. */
#define CONVERTS_TEXT(name, to_type, from_type, size_of) \
    WEAKLY size_t __real_##name(to_type *, const from_type **, size_t, mbstate_t *); \
    size_t __wrap_##name(to_type *to, const from_type **from, size_t n, mbstate_t *state) { \
        struct kept k = keep(state, PC); \
        const from_type *text = *from; \
        went_over(from, sizeof *from, PC); \
        size_t answer = __real_##name(to, from, n, state); \
        int is_done = answer != ~0ul, is_whole = is_done && (!to || !*from); \
        if (is_whole) went_over(text, size_of(text), PC); \
        else if (to && *from > text) went_over(text, (u64)((const char *)*from - (const char *)text), PC); \
        wrote(to, to &&is_done ? (answer + is_whole) * sizeof *to : 0, PC); \
        wrote(from, to ? sizeof *from : 0, PC), kept(&k); \
        return answer; \
    }
#define TEXT_SIZE(s) (__real_strlen(s) + 1)
#define WIDE_SIZE(s) LETTERS_OF(__real_wcslen(s) + 1)
CONVERTS_TEXT(mbsrtowcs, wchar_t, char, TEXT_SIZE)
CONVERTS_TEXT(wcsrtombs, char, wchar_t, WIDE_SIZE)

/* Numbers of wide letters: each looks at the letter after the number. */
#define CONVERTS_WIDE(type, name, given, base) \
    WEAKLY type __real_##name(const wchar_t *, wchar_t **given); \
    type __wrap_##name(const wchar_t *s, wchar_t **end given) { \
        wchar_t *stop = NULL; \
        comes_to_call(); \
        type answer = __real_##name(s, &stop base); \
        if (!stop) return answer; \
        went_over(s, LETTERS_OF((size_t)(stop - s) + 1), PC); \
        wrote(end, end ? sizeof *end : 0, PC); \
        if (end) *end = stop; \
        return answer; \
    }
#define AND ,
#define WHOLE_WIDE(before) \
    CONVERTS_WIDE(long, before##wcstol, AND int base, AND base) \
    CONVERTS_WIDE(unsigned long, before##wcstoul, AND int base, AND base) \
    CONVERTS_WIDE(long long, before##wcstoll, AND int base, AND base) \
    CONVERTS_WIDE(unsigned long long, before##wcstoull, AND int base, AND base)
WHOLE_WIDE()
WHOLE_WIDE(__isoc23_)
CONVERTS_WIDE(double, wcstod, , )
CONVERTS_WIDE(float, wcstof, , )
CONVERTS_WIDE(long double, wcstold, , )
#undef AND
