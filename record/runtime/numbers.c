/* Numbers of texts: how far a conversion goes over the text, and where it ends. Interposes, by the linker's --wrap,
 * strtol, strtod, atoi, the scanf family and their kin. Must not call them by their plain names, as in texts.c. */
#include "accesses.h"
#include "callers.h"
#include "readers.h"
#include "streams.h"
#include "texts.h"

/* How many bytes of a text are looked at: those of the number and one after it, or what is skipped and one. */
static size_t looked_at(const char *s, const char *end) {
    if (end == s) {
        while (*end == ' ' || (*end >= '\t' && *end <= '\r')) end++;
        if (*end == '+' || *end == '-') end++;
    }
    return (size_t)(end - s) + 1;
}

/* Before a conversion that ends at `stop`, which is NULL if the base is not allowed. */
static void converts(const char *s, const char *stop, char **end, u64 pc) {
    if (!stop) return;
    if (has_threads) access_(READ, s, looked_at(s, stop), pc);
    if (end) access_(WRITE, end, sizeof *end, pc);
}

/* `base` and `more` are its base and the comma before it, where it has one. */
#define CONVERTS(type, name, given, base) \
    WEAKLY type __real_##name(const char *, char **given); \
    type __wrap_##name(const char *s, char **end given) { \
        char *stop = NULL; \
        int error = errno; \
        if (!IDLE) __real_##name(s, &stop base), errno = error, converts(s, stop, end, PC); \
        return __real_##name(s, end base); \
    }
#define AND ,
#define WHOLE_NUMBERS(before) \
    CONVERTS(long, before##strtol, AND int base, AND base) \
    CONVERTS(unsigned long, before##strtoul, AND int base, AND base) \
    CONVERTS(long long, before##strtoll, AND int base, AND base) \
    CONVERTS(unsigned long long, before##strtoull, AND int base, AND base) \
    CONVERTS(intmax_t, before##strtoimax, AND int base, AND base) \
    CONVERTS(uintmax_t, before##strtoumax, AND int base, AND base)
WHOLE_NUMBERS()
/* What newer headers call. */
WHOLE_NUMBERS(__isoc23_)
CONVERTS(long long, strtoq, AND int base, AND base)
CONVERTS(unsigned long long, strtouq, AND int base, AND base)
CONVERTS(double, strtod, , )
CONVERTS(float, strtof, , )
CONVERTS(long double, strtold, , )
#undef AND

#define CONVERTS_ALONE(type, name) \
    extern type __real_##name(const char *); \
    type __wrap_##name(const char *s) { \
        char *stop; \
        if (!IDLE && has_threads) __real_strtod(s, &stop), access_(READ, s, looked_at(s, stop), PC); \
        return __real_##name(s); \
    }
#define CONVERTS_WHOLE_ALONE(type, name) \
    extern type __real_##name(const char *); \
    type __wrap_##name(const char *s) { \
        char *stop; \
        int error = errno; \
        if (!IDLE && has_threads) \
            __real_strtol(s, &stop, 10), errno = error, access_(READ, s, looked_at(s, stop), PC); \
        return __real_##name(s); \
    }
CONVERTS_WHOLE_ALONE(int, atoi)
CONVERTS_WHOLE_ALONE(long, atol)
CONVERTS_WHOLE_ALONE(long long, atoll)
CONVERTS_ALONE(double, atof)

/* ---- texts that are read by a format: what was found is known afterwards ---- */

/* A place that a format writes to: `size` bytes, or a text, or a pointer to a new text. */
struct target {
    char *at;
    size_t size;
    u8 is_text, is_own, letter_size, is_count;
};
#define MOST_TARGETS 32
struct targets {
    struct target of[MOST_TARGETS];
    u32 count;
};

/* How many bytes the number of a conversion has. */
static size_t number_size(char kind, int longs, int shorts, int is_wide) {
    if (__real_strchr("aAeEfFgG", kind)) return is_wide || longs > 1 ? sizeof(long double) : longs ? 8 : 4;
    if (kind == 'p' || longs || is_wide) return 8;
    return shorts > 1 ? 1 : shorts ? 2 : 4;
}

/* The place after the set of a conversion, such as `[^]x]`; NULL if the set has no end. */
static const char *behind_set(const char *f) {
    f += f[0] == '^';
    f = *f ? __real_strchr(f + 1, ']') : NULL;
    return f ? f + 1 : NULL;
}

/* Reads one conversion, after its `%`. Returns the place after it, or NULL if it is not known. */
static const char *read_target(const char *f, va_list *words, struct targets *to) {
    struct target t = {NULL, 0, 0, 0, 1, 0};
    int longs = 0, shorts = 0, is_wide = 0, is_left_out = *f == '*';
    long width = 0;
    f += is_left_out;
    for (; *f == '\'' || *f == 'I'; f++) {}
    for (; *f >= '0' && *f <= '9'; f++) width = width > 1 << 24 ? width : width * 10 + *f - '0';
    if (*f == 'm') t.is_own = 1, f++;
    for (; *f && __real_strchr("hlLqjzt", *f); f++)
        shorts += *f == 'h', longs += *f != 'h' && *f != 'L', is_wide |= *f == 'L';
    char kind = *f;
    if (!kind || !__real_strchr("diouxXpnaAeEfFgGsScC[", kind)) return NULL;
    f = kind == '[' ? behind_set(f + 1) : f + 1;
    if (is_left_out || !f) return f;
    t.at = va_arg(*words, char *);
    t.is_count = kind == 'n';
    t.is_text = kind == 's' || kind == 'S' || kind == '[';
    t.letter_size = longs || kind == 'S' || kind == 'C' ? sizeof(wchar_t) : 1;
    if (kind == 'c' || kind == 'C') t.size = (width ? (size_t)width : 1) * t.letter_size;
    else if (!t.is_text) t.size = number_size(kind, longs, shorts, is_wide);
    if (to->count < MOST_TARGETS) to->of[to->count++] = t;
    return f;
}

/* The places that a format writes to; none after an unknown conversion. */
static void find_targets(struct targets *to, const char *f, va_list given) {
    va_list words;
    to->count = 0;
    if (IDLE) return;
    va_copy(words, given);
    while (f && (f = __real_strchr(f, '%'))) f = f[1] == '%' ? f + 2 : read_target(f + 1, &words, to);
    va_end(words);
}

static size_t text_size(const char *s, size_t letter) {
    size_t n = 0;
    if (letter == 1) return __real_strlen(s) + 1;
    while (((const wchar_t *)s)[n]) n++;
    return (n + 1) * letter;
}

static void wrote_target(const struct target *t, int is_there, u64 pc) {
    char *at = t->at;
    wrote(at, !is_there ? 0 : t->is_own ? sizeof(char *) : t->is_text ? text_size(at, t->letter_size) : t->size, pc);
    if (!t->is_own) return;
    at = is_there ? *(char **)t->at : NULL;
    wrote(at, !at ? 0 : t->is_text ? text_size(at, t->letter_size) : t->size, pc);
}

/* After a call that found `found_count`. A count is written if all before it were found. */
static void wrote_targets(const struct targets *all, int found_count, u64 pc) {
    int left = found_count < 0 ? 0 : found_count;
    for (u32 k = 0; k < all->count && !IDLE; k++) {
        const struct target *t = &all->of[k];
        wrote_target(t, t->is_count ? left >= 0 && found_count >= 0 : left > 0, pc);
        if (!t->is_count) left = left > 0 ? left - 1 : -1;
    }
}

#define SCANS(before, name, given, first, behind, passed_on) \
    WEAKLY int __real_##before##v##name(given const char *, va_list); \
    int __wrap_##before##v##name(given const char *f, va_list words) { \
        struct targets to; \
        find_targets(&to, f, words); \
        first; \
        int answer = __real_##before##v##name passed_on; \
        behind; \
        wrote_targets(&to, answer, PC); \
        return answer; \
    } \
    int __wrap_##before##name(given const char *f, ...) { \
        struct targets to; \
        va_list words; \
        va_start(words, f); \
        find_targets(&to, f, words); \
        first; \
        int answer = __real_##before##v##name passed_on; \
        va_end(words); \
        behind; \
        wrote_targets(&to, answer, PC); \
        return answer; \
    }
#define READS_FORMAT READS(f, __real_strlen(f) + 1)
#define AND ,
#define ALL_SCANS(before) \
    SCANS(before, sscanf, const char *from AND, (READS_FORMAT, READS(from, __real_strlen(from) + 1)), , \
          (from, f, words)) \
    SCANS(before, fscanf, FILE *from AND, (READS_FORMAT, awaits_stream(from, 1, NO_SPACE)), received_stream(from, PC), \
          (from, f, words)) \
    SCANS(before, scanf, , (READS_FORMAT, awaits_stream(stdin, 1, NO_SPACE)), received_stream(stdin, PC), (f, words))
ALL_SCANS()
ALL_SCANS(__isoc99_)
ALL_SCANS(__isoc23_)
#undef AND
