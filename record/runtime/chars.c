/* Functions of the library of C++ that go over letters in code without hooks. Programs of C have no such library.
 * Interposes std::from_chars and std::to_chars of numbers with a point, and std::_Hash_bytes, by the linker's --wrap.
 * Must not call anything else of the library of C++, which the program may lack. */
#include "accesses.h"
#include "callers.h"
#include "texts.h"

/* What from_chars and to_chars return: where they ended, and an error or 0. */
struct chars_end {
    char *at;
    int error;
};

/* How many letters are read: those of the number and one after it; if there is no number, the first. */
static size_t chars_read(const char *first, const char *last, const char *end) {
    return (size_t)((end < last ? end + 1 : last) - first);
}

#define FROM_CHARS(name, type) \
    WEAKLY struct chars_end __real_##name(const char *, const char *, type *, int); \
    struct chars_end __wrap_##name(const char *first, const char *last, type *to, int format) { \
        comes_to_call(); \
        struct chars_end end = __real_##name(first, last, to, format); \
        accessed(READ, first, chars_read(first, last, end.at), PC); \
        wrote(to, end.error ? 0 : sizeof *to, PC); \
        return end; \
    }
FROM_CHARS(_ZSt10from_charsPKcS0_RdSt12chars_format, double)
FROM_CHARS(_ZSt10from_charsPKcS0_RfSt12chars_format, float)
FROM_CHARS(_ZSt10from_charsPKcS0_ReSt12chars_format, long double)

#define TO_CHARS(name, given, passed_on) \
    WEAKLY struct chars_end __real_##name given; \
    struct chars_end __wrap_##name given { \
        comes_to_call(); \
        struct chars_end end = __real_##name passed_on; \
        wrote(first, end.error ? 0 : (u64)(end.at - first), PC); \
        return end; \
    }
#define TO_CHARS_OF(letter, type) \
    TO_CHARS(_ZSt8to_charsPcS_##letter, (char *first, char *last, type v), (first, last, v)) \
    TO_CHARS(_ZSt8to_charsPcS_##letter##St12chars_format, (char *first, char *last, type v, int format), \
             (first, last, v, format)) \
    TO_CHARS(_ZSt8to_charsPcS_##letter##St12chars_formati, (char *first, char *last, type v, int format, int digits), \
             (first, last, v, format, digits))
TO_CHARS_OF(d, double)
TO_CHARS_OF(f, float)
TO_CHARS_OF(e, long double)

WEAKLY size_t __real__ZSt11_Hash_bytesPKvmm(const void *, size_t, size_t);
size_t __wrap__ZSt11_Hash_bytesPKvmm(const void *from, size_t n, size_t seed) {
    READS(from, n);
    return __real__ZSt11_Hash_bytesPKvmm(from, n, seed);
}
