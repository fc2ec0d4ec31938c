/* Streams of C++ that are read: code of the library of C++ does it, which has no hooks. It moves the place of the next
 * letter to read in the stream's buffer, and fills the program's memory. The standard streams have no buffer, and only
 * the filling is recorded there. Interposes operator>>, get, getline, read and their kin by the linker's --wrap. Must
 * not call them inside the recorder, as in ostreams.c. */
#include "accesses.h"
#include "callers.h"
#include "follow.h"
#include "ostreams.h"
#include "texts.h"

/* Where the classes of the library have how many letters a stream read last, and the places of the next letter to read
 * and of the end of what can be read. */
#define COUNT_IN_ISTREAM 8
#define READ_IN_BUFFER 16
#define END_IN_BUFFER 24
#define AT_END 2
#define FAILED 4

/* A call that reads a stream: the stream's state and its buffer, and what they were before. */
struct reading {
    int *state, before;
    char *buffer;
    void *next_one, *end;
};

static void *pointer_at(const char *at) { return *(void *const *)at; }

static struct reading begins_reading(void *stream, u64 pc) {
    char *buffer = buffer_of_stream(stream);
    struct reading r = {.state = (int *)(shared_of_stream(stream) + STATE_IN_STREAM), .buffer = buffer};
    if (!IDLE && buffer) {
        access_(READ, r.state, sizeof *r.state, pc);
        access_(READ, buffer + READ_IN_BUFFER, sizeof(void *), pc);
    }
    r.before = *r.state;
    if (!buffer) return r;
    r.next_one = pointer_at(buffer + READ_IN_BUFFER), r.end = pointer_at(buffer + END_IN_BUFFER);
    return r;
}

/* A buffer that is read to its end looks how far it is written. */
static void ends_reading(const struct reading *r, u64 pc) {
    const char *b = r->buffer;
    if (IDLE || !b) return;
    void *next_one = pointer_at(b + READ_IN_BUFFER), *end = pointer_at(b + END_IN_BUFFER);
    wrote(b + READ_IN_BUFFER, next_one == r->next_one ? 0 : sizeof next_one, pc);
    wrote(r->state, *r->state == r->before ? 0 : sizeof *r->state, pc);
    if (r->next_one == r->end || next_one == end || r->end != end)
        accessed(READ, b + NEXT_IN_BUFFER, sizeof(void *), pc);
    else pass_silently(pc);
}

/* A stream that has only blanks left fills nothing. */
static int has_filled(const struct reading *r) {
    return !r->before && (*r->state & (AT_END | FAILED)) != (AT_END | FAILED);
}

/* `given` and `passed_on` are what is read into, `at` and `size` what of it is filled. */
#define FROM_STREAM(name, given, passed_on, at, size) \
    WEAKLY void *__real_##name(void *stream given); \
    void *__wrap_##name(void *stream given) { \
        struct reading r = begins_reading(stream, PC); \
        void *answer = IN_LIBRARY(__real_##name(stream passed_on)); \
        ends_reading(&r, PC); \
        wrote((at), (size), PC); \
        return answer; \
    }
#define AND ,
#define VALUE_FROM_STREAM(name, type) FROM_STREAM(name, AND type *v, AND v, v, has_filled(&r) ? sizeof *v : 0)
#define NUMBER_FROM_STREAM(letter, type) \
    VALUE_FROM_STREAM(_ZNSirsER##letter, type) \
    VALUE_FROM_STREAM(_ZNSi10_M_extractI##letter##EERSiRT_, type)
NUMBER_FROM_STREAM(b, _Bool)
NUMBER_FROM_STREAM(s, short)
NUMBER_FROM_STREAM(t, unsigned short)
NUMBER_FROM_STREAM(i, int)
NUMBER_FROM_STREAM(j, unsigned)
NUMBER_FROM_STREAM(l, long)
NUMBER_FROM_STREAM(m, unsigned long)
NUMBER_FROM_STREAM(x, long long)
NUMBER_FROM_STREAM(y, unsigned long long)
NUMBER_FROM_STREAM(f, float)
NUMBER_FROM_STREAM(d, double)
NUMBER_FROM_STREAM(e, long double)
VALUE_FROM_STREAM(_ZNSirsERPv, void *)
VALUE_FROM_STREAM(_ZNSi10_M_extractIPvEERSiRT_, void *)
VALUE_FROM_STREAM(_ZNSi3getERc, char)
VALUE_FROM_STREAM(_ZStrsIcSt11char_traitsIcEERSt13basic_istreamIT_T0_ES6_RS3_, char)

#define READ_LAST (u64) * (long *)((char *)stream + COUNT_IN_ISTREAM)
FROM_STREAM(_ZNSi4readEPcl, AND char *to AND long n, AND to AND n, to, READ_LAST)
FROM_STREAM(_ZNSi8readsomeEPcl, AND char *to AND long n, AND to AND n, to, READ_LAST)
#define TEXT_FROM_STREAM(name) \
    FROM_STREAM(name, AND char *to AND long n, AND to AND n, to, n > 0 ? __real_strlen(to) + 1 : 0)
#define TEXT_TO_END(name) \
    FROM_STREAM(name, AND char *to AND long n AND char end, AND to AND n AND end, to, n > 0 ? __real_strlen(to) + 1 : 0)
TEXT_FROM_STREAM(_ZNSi3getEPcl)
TEXT_FROM_STREAM(_ZNSi7getlineEPcl)
TEXT_TO_END(_ZNSi3getEPclc)
TEXT_TO_END(_ZNSi7getlineEPclc)
TEXT_FROM_STREAM(_ZSt17__istream_extractRSiPcl)

FROM_STREAM(_ZNSi3getEv, , , NULL, 0)
FROM_STREAM(_ZNSi4peekEv, , , NULL, 0)
FROM_STREAM(_ZNSi5ungetEv, , , NULL, 0)
FROM_STREAM(_ZNSi7putbackEc, AND char c, AND c, NULL, 0)
FROM_STREAM(_ZNSi6ignoreEv, , , NULL, 0)
FROM_STREAM(_ZNSi6ignoreEl, AND long n, AND n, NULL, 0)
FROM_STREAM(_ZNSi6ignoreEli, AND long n AND int end, AND n AND end, NULL, 0)
FROM_STREAM(_ZNSi5seekgElSt12_Ios_Seekdir, AND long by AND int from, AND by AND from, NULL, 0)
FROM_STREAM(_ZNSi5seekgESt4fposI11__mbstate_tE, AND long to AND long state, AND to AND state, NULL, 0)
FROM_STREAM(_ZSt2wsIcSt11char_traitsIcEERSt13basic_istreamIT_T0_ES6_, , , NULL, 0)

/* A text of C++: where its letters are, how many there are, and room for few. */
struct string {
    char *letters;
    u64 size, room[2];
};

static void wrote_string(const struct string *s, const char *letters, int is_written, u64 pc) {
    wrote(&s->size, is_written ? sizeof s->size : 0, pc);
    wrote(&s->letters, is_written && s->letters != letters ? sizeof s->letters : 0, pc);
    wrote(s->letters, is_written ? s->size + 1 : 0, pc);
}

#define STRING_FROM_STREAM(name, given, passed_on, is_written) \
    WEAKLY void *__real_##name(void *stream, struct string *s given); \
    void *__wrap_##name(void *stream, struct string *s given) { \
        struct reading r = begins_reading(stream, PC); \
        const char *letters = s->letters; \
        void *answer = IN_LIBRARY(__real_##name(stream, s passed_on)); \
        ends_reading(&r, PC); \
        wrote_string(s, letters, is_written, PC); \
        return answer; \
    }
STRING_FROM_STREAM(_ZStrsIcSt11char_traitsIcESaIcEERSt13basic_istreamIT_T0_ES7_RNSt7__cxx1112basic_stringIS4_S5_T1_EE, ,
                   , has_filled(&r))
STRING_FROM_STREAM(
    _ZSt7getlineIcSt11char_traitsIcESaIcEERSt13basic_istreamIT_T0_ES7_RNSt7__cxx1112basic_stringIS4_S5_T1_EE, , ,
    !r.before)
STRING_FROM_STREAM(
    _ZSt7getlineIcSt11char_traitsIcESaIcEERSt13basic_istreamIT_T0_ES7_RNSt7__cxx1112basic_stringIS4_S5_T1_EES4_,
    AND char end, AND end, !r.before)
#undef AND
