/* Calls that wait for the world: others run during the wait. What the world answered is a tick: a followed run waits
 * for it, or gets it again. Interposes nanosleep, wait, poll, select, epoll_wait, accept, sched_yield and their kin.
 * Must not wait with the token. */
#include "world.h"
#include "accesses.h"
#include "callers.h"
#include "channels.h"
#include "descriptors.h"
#include "events.h"
#include "follow.h"
#include "meetings.h"
#include "plan.h"
#include "signs.h"
#include "sockets.h"
#include "turns.h"

#define WAITS(type, name, given, passed_on) \
    type name given { \
        static type(*real) given; \
        if (!real) real = (type(*) given)next(#name, NULL); \
        return OUTSIDE(real passed_on); \
    }
WAITS(int, nanosleep, (const struct timespec *t, struct timespec *rest), (t, rest))
WAITS(int, clock_nanosleep, (clockid_t c, int g, const struct timespec *t, struct timespec *rest), (c, g, t, rest))
WAITS(int, usleep, (useconds_t t), (t))
WAITS(unsigned, sleep, (unsigned t), (t))
WAITS(int, pclose, (FILE * f), (f))
WAITS(int, pause, (void), ())
WAITS(int, sigsuspend, (const sigset_t *s), (s))
WAITS(int, thrd_sleep, (const struct timespec *t, struct timespec *rest), (t, rest))

/* Those that write what came, when it has come. One that found nothing is no tick: a program may ask again and again,
 * another number of times in each run. */
#define AWAITS(type, name, given, passed_on, filled) \
    type name given { \
        static type(*real) given; \
        if (!real) real = (type(*) given)next(#name, NULL); \
        type answer = OUTSIDE(real passed_on); \
        filled; \
        return answer; \
    }
#define ENDED (FILLED(status, answer > 0), FILLED(usage, answer > 0))
AWAITS(pid_t, wait, (int *status), (status), FILLED(status, answer > 0))
AWAITS(pid_t, waitpid, (pid_t p, int *status, int g), (p, status, g), FILLED(status, answer > 0))
AWAITS(pid_t, wait3, (int *status, int g, struct rusage *usage), (status, g, usage), ENDED)
AWAITS(pid_t, wait4, (pid_t p, int *status, int g, struct rusage *usage), (p, status, g, usage), ENDED)
/* The kernel writes `info` also if it found nothing or failed. */
AWAITS(int, waitid, (idtype_t of, id_t id, siginfo_t *info, int g), (of, id, info, g), FILLED(info, 1))
AWAITS(int, sigwait, (const sigset_t *s, int *number), (s, number),
       (got_signal(answer ? 0 : *number, PC), FILLED(number, !answer)))
AWAITS(int, sigwaitinfo, (const sigset_t *s, siginfo_t *info), (s, info),
       (got_signal(answer, PC), FILLED(info, answer > 0)))
AWAITS(int, sigtimedwait, (const sigset_t *s, siginfo_t *info, const struct timespec *t), (s, info, t),
       (got_signal(answer, PC), FILLED(info, answer > 0)))

int sched_yield(void) {
    if (!IDLE) give_and_take();
    return (int)syscall(SYS_sched_yield);
}

void thrd_yield(void) { sched_yield(); }

/* ---- calls that wait for some of many descriptors: they read the wanted events, and write what is there ---- */

/* A call says that something is there to be received: it comes after who sent it. */
static void found_there(int f, int is_there, u64 pc) {
    if (IDLE || !in_of(f)) return;
    if (!is_there) return (void)pass_silently(pc);
    put_record((struct record){.kind = TRIED, .at = in_of(f), .of = OF_CHANNEL, .pc = pc});
}
#define IS_THERE (POLLIN | POLLPRI | POLLRDHUP | POLLHUP | POLLERR)

static void reads_polled(const struct pollfd *f, nfds_t n, u64 pc) { access_(READ, f, n * sizeof *f, pc); }

static void wrote_polled(const struct pollfd *f, nfds_t n, int answer, u64 pc) {
    int error = errno;
    for (nfds_t i = 0; i < n; i++) wrote(&f[i].revents, answer < 0 ? 0 : sizeof f[i].revents, pc);
    for (nfds_t i = 0; i < n; i++) found_there(f[i].fd, answer > 0 && (f[i].revents & IS_THERE), pc);
    errno = error;
}

int ppoll(struct pollfd *f, nfds_t n, const struct timespec *t, const sigset_t *s) {
    REAL(ppoll, int, struct pollfd *, nfds_t, const struct timespec *, const sigset_t *);
    u64 pc = PC;
    reads_polled(f, n, pc);
    int answer = OUTSIDE(real(f, n, t, s));
    wrote_polled(f, n, answer, pc);
    return answer;
}

/* The sets of a select, how many bytes each has for its descriptors, and the place of the call. */
struct selected {
    fd_set *of[3];
    size_t size;
    u64 pc;
};

static void reads_selected(const struct selected *all) {
    for (int k = 0; k < 3; k++)
        if (all->of[k]) access_(READ, all->of[k], all->size, all->pc);
}

static int wrote_selected(const struct selected *all, int answer) {
    for (int k = 0; k < 3; k++)
        if (all->of[k]) wrote(all->of[k], answer < 0 ? 0 : all->size, all->pc);
    int error = errno;
    for (int f = 0; answer > 0 && all->of[0] && f < (int)(8 * all->size); f++)
        if (FD_ISSET(f, all->of[0])) found_there(f, 1, all->pc);
    errno = error;
    return answer;
}

#define SELECTED(n, r, w, e) \
    (struct selected) { {r, w, e}, (n) > 0 ? ((size_t)(n) + NFDBITS - 1) / NFDBITS * sizeof(fd_mask) : 0, PC }

int select(int n, fd_set *r, fd_set *w, fd_set *e, struct timeval *t) {
    REAL(select, int, int, fd_set *, fd_set *, fd_set *, struct timeval *);
    struct selected all = SELECTED(n, r, w, e);
    reads_selected(&all);
    if (t) access_(READ, t, sizeof *t, all.pc);
    int answer = wrote_selected(&all, OUTSIDE(real(n, r, w, e, t)));
    if (t) wrote(t, sizeof *t, all.pc);
    return answer;
}

int pselect(int n, fd_set *r, fd_set *w, fd_set *e, const struct timespec *t, const sigset_t *s) {
    REAL(pselect, int, int, fd_set *, fd_set *, fd_set *, const struct timespec *, const sigset_t *);
    struct selected all = SELECTED(n, r, w, e);
    reads_selected(&all);
    return wrote_selected(&all, OUTSIDE(real(n, r, w, e, t, s)));
}

/* The first eight descriptors of a poll, a byte each. */
static u64 mask_of(const struct pollfd *f, nfds_t n) {
    u64 mask = 0;
    for (nfds_t i = 0; i < n && i < 8; i++) mask |= (u64)(u8)f[i].revents << 8 * i;
    return mask;
}

static int poll_again(int (*real)(struct pollfd *, nfds_t, int), struct pollfd *f, nfds_t n, struct tick_entry *e) {
    int want = (int)e->answer;
    for (int tries = 0, fits_now = want <= 0; !fits_now; tries++) {
        if (given_up(tries)) world_differs();
        if (tries) moment();
        real(f, n, is_due(me) ? 4 : 0);
        fits_now = (mask_of(f, n) & e->at) == e->at;
    }
    for (nfds_t i = 0; i < n; i++) f[i].revents = want > 0 ? (short)(u8)(e->at >> 8 * i) : 0;
    if (want < 0) errno = (int)e->at;
    return want;
}

int poll(struct pollfd *f, nfds_t n, int t) {
    REAL(poll, int, struct pollfd *, nfds_t, int);
    if (IDLE) return real(f, n, t);
    reads_polled(f, n, PC);
    struct tick_entry *e = world_expected(ANSWER, PC);
    int answer = e && n <= 8 ? poll_again(real, f, n, e) : OUTSIDE(real(f, n, t)), error = errno;
    put_answer(ANSWER, answer < 0 ? (u64)error : mask_of(f, n), (u64)answer, PC);
    wrote_polled(f, n, answer, PC);
    errno = error;
    return answer;
}

static int find_event(const struct epoll_event *now, int there, struct tick_entry *w, struct epoll_event *to) {
    for (int k = 0; w && k < there; k++)
        if (now[k].data.u64 == w->at && (now[k].events & w->answer) == w->answer) {
            *to = (struct epoll_event){(u32)w->answer, {.u64 = w->at}};
            return 1;
        }
    return 0;
}

/* What a poll gives back with an event was given to it before: who gets it comes after. */
static struct numbered *watched(int f, const struct epoll_event *e) {
    return numbered_of((u64)f << 8 | WATCHED, e->data.u64);
}

int epoll_ctl(int f, int what, int of, struct epoll_event *e) {
    REAL(epoll_ctl, int, int, int, int, struct epoll_event *);
    if (IDLE) return real(f, what, of, e);
    maybe_give();
    if (e && what != EPOLL_CTL_DEL) {
        struct numbered *one = watched(f, e);
        one->f = of;
        meet(ARRIVED, OF_CHANNEL, one->channel, 1, PC);
    }
    return real(f, what, of, e);
}

static int polled(int f, const struct epoll_event *all, int n, u64 pc) {
    int error = errno;
    wrote(all, n > 0 ? (u64)n * sizeof *all : 0, pc);
    for (int i = 0; i < n; i++) {
        struct numbered *one = watched(f, &all[i]);
        meet(WENT_ON, OF_CHANNEL, one->channel, 1, pc);
        found_there(one->f, (all[i].events & IS_THERE) != 0, pc);
    }
    errno = error;
    return n;
}

int epoll_pwait(int f, struct epoll_event *e, int n, int t, const sigset_t *s) {
    REAL(epoll_pwait, int, int, struct epoll_event *, int, int, const sigset_t *);
    int answer = OUTSIDE(real(f, e, n, t, s));
    return IDLE ? answer : polled(f, e, answer, PC);
}

typedef int epoll_waits(int, struct epoll_event *, int, int);

static int epoll_again(epoll_waits *real, int f, struct epoll_event *to, int n, struct tick_entry *e) {
    static __thread struct epoll_event now[64];
    int want = (int)e->answer;
    if (want < 0) errno = (int)e->at;
    for (int tries = 0; want > 0; tries++) {
        if (given_up(tries)) world_differs();
        if (tries) moment();
        int there = real(f, now, 64, is_due(me) ? 4 : 0), found = 0;
        for (int i = 0; i < want && i < n; i++) found += find_event(now, there, entry_at(tick + 2 + (u64)i), &to[i]);
        if (found == want) break;
    }
    return want;
}

int epoll_wait(int f, struct epoll_event *to, int n, int t) {
    REAL(epoll_wait, int, int, struct epoll_event *, int, int);
    if (IDLE) return real(f, to, n, t);
    struct tick_entry *e = world_expected(ANSWER, PC);
    int answer = e ? epoll_again(real, f, to, n, e) : OUTSIDE(real(f, to, n, t)), error = errno;
    put_answer(ANSWER, answer < 0 ? (u64)error : 0, (u64)answer, PC);
    for (int i = 0; i < answer; i++) put_answer(ANSWER, to[i].data.u64, to[i].events, PC);
    errno = error;
    return polled(f, to, answer, PC);
}

/* Who connected. */
static int wrote_peer(int f, const struct sockaddr *a, const socklen_t *n, socklen_t room, u64 pc) {
    wrote_address(f >= 0, a, n, room, pc);
    return f;
}

/* A connection is a descriptor that is given out. */
#define ACCEPTS(name, given, passed_on) \
    int name given { \
        static int(*real) given; \
        if (!real) real = (int(*) given)next(#name, NULL); \
        if (IDLE) return real passed_on; \
        socklen_t room = n ? *n : 0; \
        struct tick_entry *e = following ? entry_of_accept(PC) : NULL; \
        if (e && (e->code & 127) == ANSWER) return errno = (int)e->answer, gives(-1, PC); \
        if (!e) return wrote_peer(is_accepted(gives(OUTSIDE(real passed_on), PC), PC), a, n, room, PC); \
        int got_one; \
        for (int tries = 0; (got_one = at_once(f, POLLIN) ? real passed_on : (errno = EAGAIN, -1)) < 0; tries++) { \
            if ((errno != EAGAIN && errno != EINTR) || given_up(tries)) world_differs(); \
            moment(); \
        } \
        return wrote_peer(is_accepted(gives(got_one, PC), PC), a, n, room, PC); \
    }
static struct tick_entry *entry_of_accept(u64 pc) {
    struct tick_entry *e = world_expected(ANSWER, pc);
    return e ? e : world_expected(PASS, pc);
}
ACCEPTS(accept, (int f, struct sockaddr *a, socklen_t *n), (f, a, n))
ACCEPTS(accept4, (int f, struct sockaddr *a, socklen_t *n, int g), (f, a, n, g))

/* ---- chance: the C library's numbers come from one state, so their order is an order; the state of rand and random
 * is one ---- */

#define DRAWS(number, type, name, given, passed_on) \
    type name given { \
        static type(*real) given; \
        if (!real) real = (type(*) given)next(#name, NULL); \
        if (!IDLE) maybe_give(), put_of(OF_CHANCE, PASS, number, PC); \
        return real passed_on; \
    }
DRAWS(1, int, rand, (void), ())
DRAWS(1, long, random, (void), ())
DRAWS(1, void, srand, (unsigned n), (n))
DRAWS(1, void, srandom, (unsigned n), (n))
