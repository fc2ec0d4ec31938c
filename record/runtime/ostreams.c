/* Streams of C++ that are written to: code of the library of C++ does it, which has no hooks. It moves the place of
 * the next letter in the stream's buffer. The standard streams have no buffer, and nothing is recorded there.
 * Interposes operator<<, put, write, flush and their kin by the linker's --wrap. Must not call them inside the
 * recorder: each is there only if the program calls it. */
#define OF_OSTREAMS
#include "ostreams.h"
#include "accesses.h"
#include "callers.h"
#include "texts.h"

#define BUFFER_IN_STREAM 232

/* The part that all streams share lies where the table of the stream's class says. */
static char *shared_of_stream(void *stream) { return (char *)stream + (*(long **)stream)[-3]; }

/* The table of the class of the standard streams' buffers, which begins after two words. */
extern char *of_standard[] __asm__("_ZTVN9__gnu_cxx18stdio_sync_filebufIcSt11char_traitsIcEEE") __attribute__((weak));

/* The buffer of a stream; NULL for the standard streams. */
static char *buffer_of_stream(void *stream) {
    char *buffer = *(char **)(shared_of_stream(stream) + BUFFER_IN_STREAM);
    return buffer && (!of_standard || *(char ***)buffer != of_standard + 2) ? buffer : NULL;
}

static void **next_of_stream(void *stream) {
    char *buffer = buffer_of_stream(stream);
    return buffer ? (void **)(buffer + NEXT_IN_BUFFER) : NULL;
}

/* `given` and `passed_on` are what is written; `reads` records what is read for it. */
#define INTO_STREAM(name, given, passed_on, reads) \
    WEAKLY void *__real_##name(void *stream given); \
    void *__wrap_##name(void *stream given) { \
        reads; \
        void **next_one = IDLE ? NULL : next_of_stream(stream), *before = NULL; \
        if (next_one) { \
            access_(READ, shared_of_stream(stream) + STATE_IN_STREAM, sizeof(int), PC); \
            access_(READ, next_one, sizeof *next_one, PC); \
        } \
        if (next_one) before = *next_one; \
        void *answer = IN_LIBRARY(__real_##name(stream passed_on)); \
        if (next_one) wrote(next_one, *next_one == before ? 0 : sizeof *next_one, PC); \
        return answer; \
    }
#define AND ,
#define NUMBER_INTO_STREAM(letter, type) \
    INTO_STREAM(_ZNSolsE##letter, AND type v, AND v, ) \
    INTO_STREAM(_ZNSo9_M_insertI##letter##EERSoT_, AND type v, AND v, )
NUMBER_INTO_STREAM(b, _Bool)
NUMBER_INTO_STREAM(s, short)
NUMBER_INTO_STREAM(t, unsigned short)
NUMBER_INTO_STREAM(i, int)
NUMBER_INTO_STREAM(j, unsigned)
NUMBER_INTO_STREAM(l, long)
NUMBER_INTO_STREAM(m, unsigned long)
NUMBER_INTO_STREAM(x, long long)
NUMBER_INTO_STREAM(y, unsigned long long)
NUMBER_INTO_STREAM(f, float)
NUMBER_INTO_STREAM(d, double)
NUMBER_INTO_STREAM(e, long double)
NUMBER_INTO_STREAM(PKv, const void *)
INTO_STREAM(_ZNSo3putEc, AND char v, AND v, )
INTO_STREAM(_ZNSo5flushEv, , , )
INTO_STREAM(_ZSt4endlIcSt11char_traitsIcEERSt13basic_ostreamIT_T0_ES6_, , , )
INTO_STREAM(_ZStlsISt11char_traitsIcEERSt13basic_ostreamIcT_ES5_c, AND char v, AND v, )
INTO_STREAM(_ZStlsISt11char_traitsIcEERSt13basic_ostreamIcT_ES5_PKc, AND const char *s, AND s,
            if (s) READS(s, __real_strlen(s) + 1))
INTO_STREAM(_ZNSo5writeEPKcl, AND const char *s AND long n, AND s AND n, READS(s, (u64)n))
INTO_STREAM(_ZSt16__ostream_insertIcSt11char_traitsIcEERSt13basic_ostreamIT_T0_ES6_PKS3_l, AND const char *s AND long n,
            AND s AND n, READS(s, (u64)n))
#undef AND

/* The text of a buffer goes as far as its next letter. The answer is an object, for which there is room at `to`. */
#define TEXT_OF_BUFFER(name) \
    WEAKLY void *__real_##name(void *to, const void *buffer); \
    void *__wrap_##name(void *to, const void *buffer) { \
        READS((const char *)buffer + NEXT_IN_BUFFER, sizeof(void *)); \
        return IN_LIBRARY(__real_##name(to, buffer)); \
    }
TEXT_OF_BUFFER(_ZNKSt7__cxx1115basic_stringbufIcSt11char_traitsIcESaIcEE3strEv)
TEXT_OF_BUFFER(_ZNKRSt7__cxx1115basic_stringbufIcSt11char_traitsIcESaIcEE3strEv)
