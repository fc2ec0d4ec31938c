/* Calls of streams that take no lock, and those that the headers put there instead. Interposes fputc_unlocked,
 * fgetc_unlocked, __overflow, __uflow, setvbuf and their kin. Must not print, as in streams.c. */
#include "accesses.h"
#include "callers.h"
#include "events.h"
#include "streams.h"
#include "texts.h"

#undef fread_unlocked
#undef fwrite_unlocked
#undef putc_unlocked
#undef getc_unlocked
WRITES_STREAM(fputc_unlocked, to, (int c, FILE *to), (c, to))
WRITES_STREAM(putc_unlocked, to, (int c, FILE *to), (c, to))
WRITES_STREAM(putchar_unlocked, stdout, (int c), (c))
WRITES_STREAM(__overflow, to, (FILE * to, int c), (to, c))
WRITES_STREAM(fflush_unlocked, to, (FILE * to), (to))
READS_STREAM(int, fgetc_unlocked, from, (FILE * from), (from))
READS_STREAM(int, getc_unlocked, from, (FILE * from), (from))
READS_STREAM(int, getchar_unlocked, stdin, (void), ())
READS_STREAM(int, __uflow, from, (FILE * from), (from))

int fputs_unlocked(const char *s, FILE *to) {
    REAL(fputs_unlocked, int, const char *, FILE *);
    READS(s, __real_strlen(s) + 1);
    sends_stream(to, PC);
    int answer = real(s, to);
    sent_stream(to);
    return answer;
}

size_t fwrite_unlocked(const void *from, size_t size, size_t count, FILE *to) {
    REAL(fwrite_unlocked, size_t, const void *, size_t, size_t, FILE *);
    READS(from, size * count);
    sends_stream(to, PC);
    size_t n = real(from, size, count, to);
    sent_stream(to);
    return n;
}

size_t fread_unlocked(void *to, size_t size, size_t count, FILE *from) {
    REAL(fread_unlocked, size_t, void *, size_t, size_t, FILE *);
    comes_to_call(), awaits_stream(from, size * count, NO_END);
    size_t n = real(to, size, count, from);
    received_stream(from, PC), wrote(to, n * size, PC);
    return n;
}

char *fgets_unlocked(char *to, int n, FILE *from) {
    REAL(fgets_unlocked, char *, char *, int, FILE *);
    comes_to_call(), awaits_stream(from, n > 1 ? (size_t)n - 1 : 0, '\n');
    char *line = real(to, n, from);
    received_stream(from, PC), wrote(to, line ? __real_strlen(to) + 1 : 0, PC);
    return line;
}

/* From now on the buffer is the stream's. */
int setvbuf(FILE *s, char *to, int how, size_t n) {
    REAL(setvbuf, int, FILE *, char *, int, size_t);
    if (to) access_(WRITE, to, n, PC);
    return real(s, to, how, n);
}
