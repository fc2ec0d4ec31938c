/* Streams of the C library whose descriptor is a channel, such as one that fdopen made of a pipe: a call that may
 * write the stream's buffer out sends, and a call that may read it receives. Interposes fputc, fgetc, getline, fdopen,
 * fflush, fclose and their kin. Must not print: a stream of the program would be written. */
#define OF_STREAMS
#include "streams.h"
#include "accesses.h"
#include "callers.h"
#include "channels.h"
#include "descriptors.h"
#include "events.h"
#include "texts.h"
#include "turns.h"

/* The descriptor of a stream. One of memory has none, but anything in its place. */
static int descriptor_of(FILE *s) {
    int error = errno, f = fileno(s);
    errno = error;
    return f;
}

/* Before a call that may send. */
static void sends_stream(FILE *s, u64 pc) {
    u32 channel = IDLE || !s ? 0 : out_of(descriptor_of(s));
    if (!channel) return;
    maybe_give();
    pass_of(OF_CHANNEL, channel, pc);
}

static void sent_stream(FILE *s) {
    int error = errno;
    if (s) sent(descriptor_of(s), 0);
    errno = error;
}

/* Whether a call will find what it looks for in the stream's buffer: `bytes` bytes, or this letter before. */
static int is_in_buffer(const FILE *s, size_t bytes, int end) {
    const char *at = s->_IO_read_ptr;
    size_t there = at < s->_IO_read_end ? (size_t)(s->_IO_read_end - at) : 0;
    if (end != NO_SPACE) return there >= bytes || (end >= 0 && there && __real_memchr(at, end, there));
    while (there && (*at == ' ' || (*at >= '\t' && *at <= '\r'))) at++, there--;
    return there > 0;
}

/* Before a call that may receive: it waits in the recorder if the stream's buffer has too little. */
static void awaits_stream(FILE *s, size_t bytes, int end) {
    u32 channel = IDLE || !s ? 0 : in_of(descriptor_of(s));
    if (channel && !is_in_buffer(s, bytes, end)) comes_at_once(descriptor_of(s), channel, POLLIN, 0);
}

static void received_stream(FILE *s, u64 pc) {
    u32 channel = IDLE || !s ? 0 : in_of(descriptor_of(s));
    if (!channel) return;
    pass_of(OF_CHANNEL, channel, pc);
    unpark(key_of(channel));
}

WRITES_STREAM(fputc, to, (int c, FILE *to), (c, to))
WRITES_STREAM(putc, to, (int c, FILE *to), (c, to))
WRITES_STREAM(putchar, stdout, (int c), (c))

/* The streams that fdopen made of channels, and those of memory: the address of the program's text and of its size. */
struct stream {
    FILE *is;
    struct stream *next;
    char **text;
    size_t *size;
};
static struct stream *streams;

/* The place of a stream in the list; NULL finds the place of one that was closed. */
static struct stream *place_of(const FILE *stream) {
    struct stream *s = streams;
    while (s && s->is != stream) s = s->next;
    return s;
}

/* In the thread's turn. Its place stays: another thread may be at it. */
static void forget_stream(const FILE *stream) {
    struct stream *s = place_of(stream);
    if (s) s->is = NULL;
}

static void note_stream(FILE *made, char **text, size_t *size) {
    keep_turn();
    struct stream *s = place_of(NULL);
    if (s) s->text = text, s->size = size, s->is = made;
    else if ((s = __libc_malloc(sizeof *s))) *s = (struct stream){made, streams, text, size}, streams = s;
}

FILE *fdopen(int f, const char *how) {
    REAL(fdopen, FILE *, int, const char *);
    FILE *made = real(f, how);
    if (!IDLE && made && out_of(f)) note_stream(made, NULL, NULL);
    return made;
}

FILE *open_memstream(char **text, size_t *size) {
    REAL(open_memstream, FILE *, char **, size_t *);
    FILE *made = real(text, size);
    if (!IDLE && made) note_stream(made, text, size);
    return made;
}

/* The text of a stream of memory is the program's when the stream is written out, or closed. */
static struct stream memory_of(const FILE *stream) {
    struct stream *s = stream && !IDLE ? place_of(stream) : NULL;
    if (!s || !s->text) return (struct stream){0};
    comes_to_call();
    return *s;
}

static void wrote_memory(const struct stream *s, u64 pc) {
    if (s->text) wrote(s->text, sizeof *s->text, pc), wrote(s->size, sizeof *s->size, pc);
}

static void sends_all_streams(u64 pc) {
    sends_stream(stdout, pc);
    for (struct stream *s = streams; s; s = s->next) sends_stream(s->is, pc);
}

static void sent_all_streams(void) {
    sent_stream(stdout);
    for (struct stream *s = streams; s; s = s->next) sent_stream(s->is);
}

/* Without a stream it writes all streams out. */
int fflush(FILE *to) {
    REAL(fflush, int, FILE *);
    to ? sends_stream(to, PC) : IDLE ? (void)0 : sends_all_streams(PC);
    struct stream s = memory_of(to);
    int answer = real(to);
    to ? sent_stream(to) : IDLE ? (void)0 : sent_all_streams();
    wrote_memory(&s, PC);
    return answer;
}

READS_STREAM(int, fgetc, from, (FILE * from), (from))
READS_STREAM(int, getc, from, (FILE * from), (from))
READS_STREAM(int, getchar, stdin, (void), ())

/* A line goes into a block of the program, which the call may replace by a larger one. */
typedef ssize_t reads_until(char **, size_t *, int, FILE *);
static ssize_t reads_line(char **to, size_t *room, int end, FILE *from, u64 pc) {
    static reads_until *real;
    if (!real) real = (reads_until *)next("getdelim", NULL);
    if (IDLE || !to || !room) return real(to, room, end, from);
    access_(READ, to, sizeof *to, pc), access_(READ, room, sizeof *room, pc);
    char *block = *to;
    size_t before = *room;
    awaits_stream(from, SIZE_MAX, end);
    ssize_t n = real(to, room, end, from);
    received_stream(from, pc);
    wrote(to, *to == block ? 0 : sizeof *to, pc), wrote(room, *room == before ? 0 : sizeof *room, pc);
    wrote(*to, n < 0 ? 0 : (u64)n + 1, pc);
    return n;
}
ssize_t getline(char **to, size_t *room, FILE *from) { return reads_line(to, room, '\n', from, PC); }
ssize_t getdelim(char **to, size_t *room, int end, FILE *from) { return reads_line(to, room, end, from, PC); }
/* What the headers call in their place. */
ssize_t __getdelim(char **to, size_t *room, int end, FILE *from) { return reads_line(to, room, end, from, PC); }

int fclose(FILE *stream) {
    REAL(fclose, int, FILE *);
    int f = descriptor_of(stream);
    if (f >= 0) closes(f, PC);
    struct stream s = memory_of(stream);
    if (!IDLE) keep_turn(), forget_stream(stream);
    int answer = real(stream);
    closed(f);
    wrote_memory(&s, PC);
    return answer;
}
