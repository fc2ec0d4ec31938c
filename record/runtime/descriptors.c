/* Descriptors: a number that was closed and is given out again passes from the one to the other. Pipes, eventfds and
 * the two ways of a socket pair are channels, by the number of the descriptor. Interposes open, socket, pipe, dup,
 * fcntl, close, fopen, flock and their kin. Must not open or close a descriptor by these names: the recorder's own
 * calls go by `syscall`. */
#define OF_DESCRIPTORS
#include "descriptors.h"
#include "accesses.h"
#include "atomics.h"
#include "callers.h"
#include "events.h"
#include "sockets.h"
#include "turns.h"
#include "words.h"

static u32 channels;
/* A child process has the ends too: what comes through a channel then may not be of this process. */
static volatile u8 has_forked;

static int is_known(int f) { return f >= 0 && f < MOST_DESCRIPTORS; }
static u32 in_of(int f) { return is_known(f) ? ends[f].reads : 0; }
static u32 out_of(int f) { return is_known(f) ? ends[f].writes : 0; }
/* What threads that wait for a channel are parked at. */
static const void *key_of(u32 channel) { return (const char *)ends + channel; }

/* In the thread's turn. */
static struct numbered *numbered_of(u64 kind, u64 number) {
    struct numbered **first = &all_numbered[((number ^ kind << 20) * 0x9e3779b97f4a7c15ull) >> 54];
    for (struct numbered *n = *first; n; n = n->next)
        if (n->kind == kind && n->number == number) return n;
    struct numbered *made = __libc_calloc(1, sizeof *made);
    if (!made) abort();
    *made = (struct numbered){kind, number, __atomic_add_fetch(&channels, 1, SC), -1, *first};
    return *first = made;
}
static u32 channel_of(u64 kind, u64 number) { return numbered_of(kind, number)->channel; }

static void pass_of(int of, u64 at, u64 pc) {
    int error = errno;
    if (!IDLE) put_of(of, PASS, at, pc);
    errno = error;
}

/* After a call that gave out a descriptor. */
static int gives(int f, u64 pc) {
    if (f >= 0) pass_of(OF_DESCRIPTOR, (u64)f, pc);
    else if (!IDLE) put_answer(ANSWER, 0, (u64)errno, pc);
    return f;
}

static void set_end(int f, u32 reads, u32 writes, int kind) {
    if (is_known(f)) ends[f] = (struct end){reads, writes, kind == PIPE, kind != NO_STREAM, 0, 0};
}

/* A call sends through a channel, or has received; how many bytes is its answer. Its place. */
static u64 pass_bytes(int f, int way, u64 bytes, u64 pc) {
    u32 channel = way == POSTED ? out_of(f) : in_of(f);
    int error = errno;
    u8 order = (u8)(is_known(f) && ends[f].is_stream ? way : NO_WAY);
    struct record r = {.kind = PASS, .at = channel, .of = OF_CHANNEL, .pc = pc, .answer = bytes, .order = order};
    u64 place = way == POSTED ? put_open_record(r) : put_record(r);
    errno = error;
    return place;
}

static int gives_two(int answer, int *two, int kind, u64 pc) {
    int is_pipe = kind == PIPE;
    if (answer || IDLE) return answer;
    wrote(two, 2 * sizeof *two, pc);
    gives(two[0], pc), gives(two[1], pc);
    u32 way = __atomic_add_fetch(&channels, is_pipe ? 1 : 2, SC);
    set_end(two[0], way, is_pipe ? 0 : way - 1, kind);
    set_end(two[1], is_pipe ? 0 : way - 1, way, kind);
    return answer;
}

static int gives_again(int from, int to, u64 pc) {
    gives(to, pc);
    if (is_known(from) && is_known(to)) ends[to] = ends[from];
    return to;
}

/* ---- locks of whole files: a lock by the file, of its descriptor ---- */

static u64 number_of_file(int f) {
    struct stat about;
    return syscall(SYS_fstat, f, &about) ? 0 : (u64)about.st_ino ^ (u64)about.st_dev << 40;
}

static void put_file_lock(int kind, int f, u64 pc) {
    u32 channel = channel_of(FILE_LOCK, number_of_file(f));
    put_record((struct record){.kind = (u8)kind, .at = channel, .of = OF_CHANNEL, .pc = pc, .size = kind == READER_IN});
}

/* Before a file is unlocked, or its descriptor is closed. */
static void unlocks_file(int f, u64 pc) {
    if (IDLE || !is_known(f) || !ends[f].file_lock) return;
    put_file_lock(ends[f].file_lock == LOCK_SH ? READER_OUT : RELEASE, f, pc);
    ends[f].file_lock = 0;
}

int flock(int f, int what) {
    REAL(flock, int, int, int);
    if (IDLE || !is_known(f)) return OUTSIDE(real(f, what));
    maybe_give();
    int way = what & ~LOCK_NB, error;
    if (way == LOCK_UN) unlocks_file(f, PC);
    int answer = OUTSIDE(real(f, what));
    error = errno;
    if (!answer && way != LOCK_UN) {
        unlocks_file(f, PC);
        put_file_lock(way == LOCK_SH ? READER_IN : WRITER, f, PC);
        ends[f].file_lock = (u8)way;
    }
    errno = error;
    return answer;
}

/* Before a call that closes: who reads to the end comes after it. */
static void closes(int f, u64 pc) {
    if (IDLE) return;
    maybe_give();
    unlocks_file(f, pc);
    if (out_of(f)) pass_bytes(f, POSTED, 0, pc);
    pass_of(OF_DESCRIPTOR, (u64)f, pc);
}

/* After it: who waits at the other end looks again. */
static void closed(int f) {
    if (IDLE || !is_known(f)) return;
    struct end was = ends[f];
    set_end(f, 0, 0, NO_STREAM);
    if (was.reads) unpark(key_of(was.reads));
    if (was.writes) unpark(key_of(was.writes));
}

#define GIVES(name, given, passed_on) \
    int name given { \
        static int(*real) given; \
        if (!real) real = (int(*) given)next(#name, NULL); \
        if (!IDLE) maybe_give(); \
        return gives(real passed_on, PC); \
    }
GIVES(socket, (int d, int t, int p), (d, t, p))
GIVES(epoll_create, (int n), (n))
GIVES(epoll_create1, (int g), (g))
GIVES(creat, (const char *p, mode_t m), (p, m))

/* A named pipe is a channel by its file. */
static int opened(int f, int how) {
    struct stat about;
    if (f < 0 || IDLE || syscall(SYS_fstat, f, &about) || !S_ISFIFO(about.st_mode)) return f;
    u32 channel = channel_of(NAMED_PIPE, (u64)about.st_ino ^ (u64)about.st_dev << 40);
    int way = how & O_ACCMODE;
    set_end(f, way == O_WRONLY ? 0 : channel, way == O_RDONLY ? 0 : channel, PIPE);
    return f;
}

/* To open a named pipe waits for its other end. */
static int opens_pipe(int folder, const char *path) {
    struct stat about;
    return !IDLE && !syscall(SYS_newfstatat, folder, path, &about, 0) && S_ISFIFO(about.st_mode);
}

#define OPENS(name, folder, before, passed_on) \
    int name(before, int g, ...) { \
        va_list more; \
        va_start(more, g); \
        mode_t m = va_arg(more, mode_t); \
        va_end(more); \
        REAL(name, int, before, int, ...); \
        if (!IDLE) maybe_give(); \
        int error = errno, waits = opens_pipe(folder, p); \
        errno = error; \
        int made = gives(waits ? OUTSIDE(real passed_on) : real passed_on, PC); \
        error = errno, opened(made, g), errno = error; \
        return made; \
    }
#define AND ,
OPENS(open, AT_FDCWD, const char *p, (p, g, m))
OPENS(open64, AT_FDCWD, const char *p, (p, g, m))
OPENS(openat, d, int d AND const char *p, (d, p, g, m))
OPENS(openat64, d, int d AND const char *p, (d, p, g, m))

int eventfd(unsigned n, int g) {
    REAL(eventfd, int, unsigned, int);
    if (!IDLE) maybe_give();
    int f = gives(real(n, g), PC);
    if (f >= 0 && !IDLE) {
        u32 way = __atomic_add_fetch(&channels, 1, SC);
        set_end(f, way, way, NO_STREAM);
    }
    return f;
}

/* What a read of it gives is who sent each signal. */
int signalfd(int f, const sigset_t *signals, int how) {
    REAL(signalfd, int, int, const sigset_t *, int);
    if (IDLE) return real(f, signals, how);
    access_(READ, signals, 8, PC);
    int made = gives(real(f, signals, how), PC);
    if (is_known(made)) ends[made].is_signals = 1;
    return made;
}

int pipe(int two[2]) {
    REAL(pipe, int, int *);
    if (!IDLE) maybe_give();
    return gives_two(real(two), two, PIPE, PC);
}

int pipe2(int two[2], int g) {
    REAL(pipe2, int, int *, int);
    if (!IDLE) maybe_give();
    return gives_two(real(two, g), two, PIPE, PC);
}

int socketpair(int d, int t, int p, int two[2]) {
    REAL(socketpair, int, int, int, int, int *);
    if (!IDLE) maybe_give();
    int is_stream = (t & ~(SOCK_NONBLOCK | SOCK_CLOEXEC)) == SOCK_STREAM;
    return gives_two(real(d, t, p, two), two, is_stream ? STREAM : NO_STREAM, PC);
}

int dup(int f) {
    REAL(dup, int, int);
    if (!IDLE) maybe_give();
    return gives_again(f, real(f), PC);
}

int dup2(int f, int to) {
    REAL(dup2, int, int, int);
    closes(to, PC);
    return gives_again(f, real(f, to), PC);
}

int dup3(int f, int to, int g) {
    REAL(dup3, int, int, int, int);
    closes(to, PC);
    return gives_again(f, real(f, to, g), PC);
}

static int control(int f, int what, void *more, int (*real)(int, int, ...), u64 pc) {
    int again = what == F_DUPFD || what == F_DUPFD_CLOEXEC;
    if (!again || IDLE) return real(f, what, more);
    maybe_give();
    return gives_again(f, real(f, what, more), pc);
}

#define CONTROLS(name) \
    int name(int f, int what, ...) { \
        va_list words; \
        va_start(words, what); \
        void *more = va_arg(words, void *); \
        va_end(words); \
        REAL(name, int, int, int, ...); \
        return control(f, what, more, real, PC); \
    }
CONTROLS(fcntl)
CONTROLS(fcntl64)

/* A program that closes all descriptors leaves the recorder its file. */
int close(int f) {
    REAL(close, int, int);
    if (f >= 0 && f == raw_file) {
        errno = EBADF;
        return -1;
    }
    closes(f, PC);
    int answer = real(f);
    closed(f);
    return answer;
}

int close_range(unsigned from, unsigned to, int g) {
    REAL(close_range, int, unsigned, unsigned, int);
    if (!on || raw_file < 0 || from > (unsigned)raw_file || to < (unsigned)raw_file) return real(from, to, g);
    int below = from < (unsigned)raw_file ? real(from, (unsigned)raw_file - 1, g) : 0;
    int above = to > (unsigned)raw_file ? real((unsigned)raw_file + 1, to, g) : 0;
    return below ? below : above;
}

void closefrom(int from) { close_range(from > 0 ? (unsigned)from : 0, ~0u, 0); }

#define OPENS_STREAM(name) \
    FILE *name(const char *p, const char *how) { \
        REAL(name, FILE *, const char *, const char *); \
        FILE *made = real(p, how); \
        if (made) pass_of(OF_DESCRIPTOR, (u64)fileno(made), PC); \
        return made; \
    }
OPENS_STREAM(fopen)
OPENS_STREAM(fopen64)
