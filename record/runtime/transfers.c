/* Calls that move bytes from one descriptor to another, or go over many messages. Interposes splice, tee, sendfile,
 * vmsplice, preadv, pwritev, sendmmsg and recvmmsg. Must not wait in the call with the token, as in channels.c. */
#include "accesses.h"
#include "callers.h"
#include "channels.h"
#include "descriptors.h"
#include "events.h"
#include "turns.h"
#include <sys/sendfile.h>

/* Before a call that takes bytes from one channel and sends them through another: whether it is made in the turn, so
 * that nobody receives what it sends before its own receive is recorded. */
static int moves_in_turn(int from, unsigned how) {
    int way = comes_at_once(from, in_of(from), POLLIN, how & SPLICE_F_NONBLOCK ? MSG_DONTWAIT : 0);
    return in_of(from) ? way : WITHOUT_TURN;
}

static void moved(int from, int to, ssize_t n, int flags, u64 pc) {
    int error = errno;
    received_by(from, n, flags, pc);
    sends(to, pc);
    errno = error;
    sent(to, n);
}

ssize_t splice(int from, off64_t *at, int to, off64_t *to_at, size_t n, unsigned how) {
    REAL(splice, ssize_t, int, off64_t *, int, off64_t *, size_t, unsigned);
    if (IDLE) return real(from, at, to, to_at, n, how);
    int way = moves_in_turn(from, how);
    if (way == INTERRUPTED) return errno = EINTR, -1;
    if (way == WITHOUT_TURN) sends(to, PC);
    ssize_t bytes = way == IN_TURN ? real(from, at, to, to_at, n, how) : OUTSIDE(real(from, at, to, to_at, n, how));
    if (way == IN_TURN) moved(from, to, bytes, 0, PC);
    else sent(to, bytes);
    return bytes;
}

/* The bytes stay where they are. */
ssize_t tee(int from, int to, size_t n, unsigned how) {
    REAL(tee, ssize_t, int, int, size_t, unsigned);
    if (IDLE) return real(from, to, n, how);
    int way = moves_in_turn(from, how);
    if (way == INTERRUPTED) return errno = EINTR, -1;
    ssize_t bytes = way == IN_TURN ? real(from, to, n, how) : OUTSIDE(real(from, to, n, how));
    moved(from, to, bytes, MSG_PEEK, PC);
    return bytes;
}

#define SENDS_FILE(name, type) \
    ssize_t name(int to, int from, type *at, size_t n) { \
        REAL(name, ssize_t, int, int, type *, size_t); \
        sends(to, PC); \
        return sent(to, OUTSIDE(real(to, from, at, n))); \
    }
SENDS_FILE(sendfile, off_t)
SENDS_FILE(sendfile64, off64_t)

SENDS(vmsplice, (int f, const struct iovec *v, size_t n, unsigned g), (f, v, n, g), f, 0, v, n)
#define AT_PLACES(more, type) \
    RECEIVES(preadv##more, (int f, const struct iovec *v, int n, type at), (f, v, n, at), f, 0, NULL, NULL, v, \
             pieces_of(n)) \
    SENDS(pwritev##more, (int f, const struct iovec *v, int n, type at), (f, v, n, at), f, 0, v, pieces_of(n))
AT_PLACES(, off_t)
AT_PLACES(64, off64_t)
#define BY_FLAGS(more, type) \
    RECEIVES(preadv##more, (int f, const struct iovec *v, int n, type at, int g), (f, v, n, at, g), f, 0, NULL, NULL, \
             v, pieces_of(n)) \
    SENDS(pwritev##more, (int f, const struct iovec *v, int n, type at, int g), (f, v, n, at, g), f, 0, v, pieces_of(n))
BY_FLAGS(2, off_t)
BY_FLAGS(64v2, off64_t)

/* How many bytes `n` messages have. */
static ssize_t bytes_in(const struct mmsghdr *all, int n) {
    size_t bytes = 0;
    for (int k = 0; k < n; k++) bytes += all[k].msg_len;
    return (ssize_t)bytes;
}

int sendmmsg(int f, struct mmsghdr *all, unsigned n, int g) {
    REAL(sendmmsg, int, int, struct mmsghdr *, unsigned, int);
    for (unsigned k = 0; k < n && !IDLE; k++)
        goes_over(READ, all[k].msg_hdr.msg_iov, all[k].msg_hdr.msg_iovlen, SSIZE_MAX, PC);
    sends(f, PC);
    int done = ON_CHANNEL(f, out_of(f), POLLOUT, g, real(f, all, n, g));
    sent(f, bytes_in(all, done));
    for (int k = 0; k < done; k++) wrote(&all[k].msg_len, sizeof all[k].msg_len, PC);
    return done;
}

/* It waits for all messages, if no flag says otherwise: then others run. */
int recvmmsg(int f, struct mmsghdr *all, unsigned n, int g, struct timespec *t) {
    REAL(recvmmsg, int, int, struct mmsghdr *, unsigned, int, struct timespec *);
    int waits = n > 1 && !(g & (MSG_WAITFORONE | MSG_DONTWAIT));
    int done = waits ? OUTSIDE(real(f, all, n, g, t)) : ON_CHANNEL(f, in_of(f), POLLIN, g, real(f, all, n, g, t));
    received_by(f, done < 0 ? -1 : bytes_in(all, done), g, PC);
    for (int k = 0; k < done; k++) {
        goes_over(WRITE, all[k].msg_hdr.msg_iov, all[k].msg_hdr.msg_iovlen, all[k].msg_len, PC);
        wrote(&all[k].msg_len, sizeof all[k].msg_len, PC);
    }
    return done;
}
