/* What goes through a descriptor. A call on a channel that will not wait is made in the thread's turn, so that the
 * pass beside it is in the order of the calls: the receiver comes after the sender. It is a semaphore. Interposes read
 * and write by the linker's --wrap, and readv, recv, send, pread, eventfd_read and their kin. Must not wait in the
 * call with the token: ON_CHANNEL parks first. */
#define OF_CHANNELS
#include "channels.h"
#include "accesses.h"
#include "callers.h"
#include "conditions.h"
#include "deadlocks.h"
#include "descriptors.h"
#include "events.h"
#include "follow.h"
#include "plan.h"
#include "signs.h"
#include "turns.h"
#include "words.h"

extern ssize_t __real_read(int, void *, size_t), __real_write(int, const void *, size_t);

static int at_once(int f, short what) {
    struct pollfd p = {f, what, 0};
    struct timespec none = {0, 0};
    int error = errno, answer = syscall(SYS_ppoll, &p, 1, &none, NULL, 0) > 0;
    errno = error;
    return answer;
}

static int is_nonblocking(int f) { return !!(syscall(SYS_fcntl, f, F_GETFL, 0) & O_NONBLOCK); }

static void park_for(int f, u32 channel, short what) {
    int awaited_before = awaited;
    short way_before = awaited_way;
    awaited = f, awaited_way = what;
    park(key_of(channel), NULL, 0);
    awaited = awaited_before, awaited_way = way_before;
}

/* Waits in the recorder until the call on a channel will not wait. */
static int comes_at_once(int f, u32 channel, short what, int flags) {
    if (IDLE || !channel) return WITHOUT_TURN;
    /* In a followed run, what is sent is there when its pass is done. */
    if (!following || what == POLLIN) maybe_give();
    if ((flags & MSG_DONTWAIT) || is_nonblocking(f)) return IN_TURN;
    was_interrupted = 0;
    while (!at_once(f, what)) {
        if (has_forked) return WITHOUT_TURN;
        if (was_interrupted) return INTERRUPTED;
        pthread_testcancel();
        park_for(f, channel, what);
    }
    return IN_TURN;
}

/* After a call that received, or was told that nothing more comes, or was refused. By flags it may leave the bytes. */
static ssize_t received_by(int f, ssize_t n, int flags, u64 pc) {
    u32 channel = in_of(f);
    int error = errno;
    if (IDLE) return n;
    if (n >= 0 && channel) {
        pass_bytes(f, flags & (MSG_PEEK | MSG_OOB | MSG_TRUNC) ? NO_WAY : WAITED, (u64)n, pc);
        unpark(key_of(channel));
    } else {
        put_answer(ANSWER, n < 0 ? (u64)error : 0, (u64)n, pc);
    }
    errno = error;
    return n;
}

static ssize_t received(int f, ssize_t n, u64 pc) { return received_by(f, n, 0, pc); }

/* The record of what this thread sends. */
static __thread u64 sending = NO_PLACE;

/* Before a call that sends, which passes although it may be refused. */
static void sends(int f, u64 pc) {
    sending = NO_PLACE;
    if (!out_of(f)) pass_silently(pc);
    else if (!IDLE) sending = pass_bytes(f, POSTED, 0, pc);
}

/* After a call, or a part of it, that sent `n` bytes. */
static ssize_t sent(int f, ssize_t n) {
    u32 channel = out_of(f);
    if (!channel || IDLE) return n;
    if (n > 0 && sending != NO_PLACE) long_at(sending)->answer += (u64)n;
    unpark(key_of(channel));
    return n;
}

/* In a followed run: as many bytes as were recorded, and no more. */
static ssize_t read_again(int f, char *to, size_t n, struct tick_entry *e) {
    size_t wanted = (ssize_t)e->answer < 0 ? 0 : e->answer < n ? e->answer : n, there = 0;
    if ((ssize_t)e->answer < 0) {
        errno = (int)e->at;
        return -1;
    }
    for (int tries = 0; there < wanted;) {
        ssize_t more = at_once(f, POLLIN) ? __real_read(f, to + there, wanted - there) : (errno = EAGAIN, -1);
        if (more > 0) there += (size_t)more, tries = 0;
        else if (more == 0 || (errno != EAGAIN && errno != EINTR) || given_up(++tries)) world_differs();
        else moment();
    }
    return (ssize_t)there;
}

/* The entry of a read: of the world, or of a channel. */
static struct tick_entry *read_expected(int f, u64 pc) {
    struct tick_entry *e = world_expected(ANSWER, pc);
    return e || !in_of(f) ? e : world_expected(PASS, pc);
}

/* What a descriptor of signals gave. */
static void got_signals(const struct signalfd_siginfo *all, ssize_t bytes, u64 pc) {
    int error = errno;
    for (ssize_t k = 0; k < bytes / (ssize_t)sizeof *all; k++) got_signal((int)all[k].ssi_signo, pc);
    errno = error;
}

static ssize_t read_at(int f, void *to, size_t n, u64 pc) {
    if (!IDLE && is_known(f) && ends[f].is_signals) maybe_give();
    struct tick_entry *e = following ? read_expected(f, pc) : NULL;
    ssize_t got_bytes = e ? read_again(f, to, n, e) : ON_CHANNEL(f, in_of(f), POLLIN, 0, __real_read(f, to, n));
    received(f, got_bytes, pc), wrote(to, got_bytes > 0 ? (u64)got_bytes : 0, pc);
    if (is_known(f) && ends[f].is_signals) got_signals(to, got_bytes, pc);
    return got_bytes;
}

ssize_t __wrap_read(int f, void *to, size_t n) { return read_at(f, to, n, PC); }

/* A pipe takes PIPE_BUF bytes at once if it takes any: more are sent in pieces, so that who reads may come between. */
static ssize_t write_pieces(int f, const char *from, size_t n) {
    size_t there = 0;
    while (there < n) {
        size_t size = n - there < PIPE_BUF ? n - there : PIPE_BUF;
        ssize_t more = ON_CHANNEL(f, out_of(f), POLLOUT, 0, __real_write(f, from + there, size));
        if (more < 0) return there ? (ssize_t)there : more;
        there += (size_t)more;
        sent(f, more);
    }
    return (ssize_t)there;
}

/* A socket takes as much as it has room for. */
static ssize_t send_pieces(int f, const char *from, size_t n, int flags) {
    REAL(send, ssize_t, int, const void *, size_t, int);
    size_t there = 0;
    do {
        int how = comes_at_once(f, out_of(f), POLLOUT, 0);
        if (how == WITHOUT_TURN) return sent(f, OUTSIDE(real(f, from + there, n - there, flags)));
        if (how == INTERRUPTED) return there ? (ssize_t)there : (errno = EINTR, -1);
        ssize_t more = real(f, from + there, n - there, flags | MSG_DONTWAIT);
        if (more < 0 && errno == EAGAIN) let_others();
        else if (more < 0) return there ? (ssize_t)there : more;
        else there += (size_t)more, sent(f, more);
    } while (there < n);
    return (ssize_t)there;
}

static int is_waiting_socket(int f) {
    return !IDLE && out_of(f) && in_of(f) != out_of(f) && !ends[f].is_pipe && !is_nonblocking(f);
}

static ssize_t write_at(int f, const void *from, size_t n, u64 pc) {
    access_(READ, from, n, pc);
    sends(f, pc);
    if (is_waiting_socket(f)) return send_pieces(f, from, n, 0);
    if (!IDLE && out_of(f) && ends[f].is_pipe && n > PIPE_BUF && !is_nonblocking(f)) return write_pieces(f, from, n);
    return sent(f, ON_CHANNEL(f, out_of(f), POLLOUT, 0, __real_write(f, from, n)));
}

ssize_t __wrap_write(int f, const void *from, size_t n) { return write_at(f, from, n, PC); }

/* The memory that a call went over, `bytes` bytes from the first piece on: each piece is a tick, also if none came. */
static void goes_over(int kind, const struct iovec *v, size_t pieces, ssize_t bytes, u64 pc) {
    int error = errno;
    size_t left = bytes > 0 ? (size_t)bytes : 0;
    for (size_t k = 0; k < pieces && !IDLE; k++) {
        size_t n = v[k].iov_len < left ? v[k].iov_len : left;
        if (!n) pass_silently(pc);
        else if (kind == WRITE) accessed(kind, v[k].iov_base, n, pc);
        else access_(kind, v[k].iov_base, n, pc);
        left -= n;
    }
    errno = error;
}
static size_t pieces_of(int n) { return n > 0 ? (size_t)n : 0; }
#define ONE(at, n) (&(struct iovec){(void *)(at), (n)}), 1

/* Of an address so much is written as there was room. */
static void wrote_address(int there, const void *a, const socklen_t *n, socklen_t room, u64 pc) {
    if (!there || !a || !n) return;
    wrote(a, *n < room ? *n : room, pc);
    wrote(n, sizeof *n, pc);
}

RECEIVES(readv, (int f, const struct iovec *v, int n), (f, v, n), f, 0, NULL, NULL, v, pieces_of(n))
RECEIVES(recvfrom, (int f, void *to, size_t n, int g, struct sockaddr *a, socklen_t *m), (f, to, n, g, a, m), f, g, a,
         m, ONE(to, n))
RECEIVES(recvmsg, (int f, struct msghdr *m, int g), (f, m, g), f, g, m->msg_name, &m->msg_namelen, m->msg_iov,
         m->msg_iovlen)
SENDS(writev, (int f, const struct iovec *v, int n), (f, v, n), f, 0, v, pieces_of(n))
SENDS(sendto, (int f, const void *b, size_t n, int g, const struct sockaddr *a, socklen_t m), (f, b, n, g, a, m), f, g,
      ONE(b, n))
SENDS(sendmsg, (int f, const struct msghdr *m, int g), (f, m, g), f, g, m->msg_iov, m->msg_iovlen)

ssize_t send(int f, const void *from, size_t n, int g) {
    REAL(send, ssize_t, int, const void *, size_t, int);
    goes_over(READ, ONE(from, n), SSIZE_MAX, PC);
    sends(f, PC);
    if (!(g & MSG_DONTWAIT) && is_waiting_socket(f)) return send_pieces(f, from, n, g);
    return sent(f, ON_CHANNEL(f, out_of(f), POLLOUT, g, real(f, from, n, g)));
}

#define AT_A_PLACE(name, type, before, behind) \
    ssize_t name(int f, type at, size_t n, off_t place) { \
        REAL(name, ssize_t, int, type, size_t, off_t); \
        before; \
        ssize_t bytes = real(f, at, n, place); \
        behind; \
        return bytes; \
    }
#define PREADS(name) AT_A_PLACE(name, void *, , goes_over(WRITE, ONE(at, n), bytes, PC))
#define PWRITES(name) AT_A_PLACE(name, const void *, goes_over(READ, ONE(at, n), SSIZE_MAX, PC), )
PREADS(pread)
PREADS(pread64)
PWRITES(pwrite)
PWRITES(pwrite64)

/* The other end learns that nothing more comes. */
int shutdown(int f, int how) {
    REAL(shutdown, int, int, int);
    u32 channel = how == SHUT_RD ? 0 : out_of(f);
    if (channel) sends(f, PC);
    return (int)sent(f, real(f, how));
}

ssize_t recv(int f, void *to, size_t n, int g) {
    REAL(recv, ssize_t, int, void *, size_t, int);
    if (IDLE) return real(f, to, n, g);
    struct tick_entry *e = following && !(g & MSG_PEEK) ? read_expected(f, PC) : NULL;
    ssize_t bytes = e ? read_again(f, to, n, e) : ON_CHANNEL(f, in_of(f), POLLIN, g, real(f, to, n, g));
    received_by(f, bytes, g, PC);
    goes_over(WRITE, ONE(to, n), bytes, PC);
    return bytes;
}

int eventfd_read(int f, eventfd_t *to) { return read_at(f, to, sizeof *to, PC) == sizeof *to ? 0 : -1; }
int eventfd_write(int f, eventfd_t n) { return write_at(f, &n, sizeof n, PC) == sizeof n ? 0 : -1; }
