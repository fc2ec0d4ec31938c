/* Semaphores, barriers, what is done once, statics of C++. Each waits in the recorder, so that the order in which
 * threads go on is drawn. Interposes sem_*, pthread_barrier_wait, pthread_once, __cxa_guard_*, __tsan_acquire and
 * __tsan_release. Must not call the library's calls that wait: a thread that waits there keeps the token. */
#define OF_MEETINGS
#include "meetings.h"
#include "accesses.h"
#include "atomics.h"
#include "callers.h"
#include "conditions.h"
#include "events.h"
#include "locks.h"
#include "turns.h"

/* Comes after all earlier passes of this object, and before all later ones. */
static void pass(const volatile void *at, u64 pc) {
    int error = errno;
    if (!IDLE) put(PASS, (u64)at, 0, pc);
    errno = error;
}

/* A thread comes to a meeting, or goes on from it: `round` numbers the meetings at one place, 0 if there is one
 * alone. */
static void meet(int kind, int of, u64 at, u64 round, u64 pc) {
    if (!IDLE) put_record((struct record){.kind = (u8)kind, .at = at, .answer = round, .pc = pc, .of = (u8)of});
}

/* A semaphore is posted, or a wait for it has returned; `how` is BY_TRY if the wait is not for ever. */
static void pass_semaphore(int way, u64 how, sem_t *s, u64 pc) {
    int error = errno;
    if (!IDLE) put_record((struct record){.kind = PASS, .at = (u64)s, .answer = how, .pc = pc, .order = (u8)way});
    errno = error;
}

/* A try that was refused comes after the wait that took the semaphore, and before the next post. */
static int passed(u64 how, int answer, sem_t *s, u64 pc) {
    int error = errno, refused = error == EAGAIN || error == ETIMEDOUT;
    if (!answer) pass_semaphore(WAITED, how, s, pc);
    else if (!IDLE) put_answer(refused ? TRIED : ANSWER, (u64)s, (u64)error, pc);
    errno = error;
    return answer;
}

int sem_post(sem_t *s) {
    REAL(sem_post, int, sem_t *);
    if (!IDLE) maybe_give();
    pass_semaphore(POSTED, 0, s, PC);
    int answer = real(s);
    if (!IDLE) unpark(s);
    else if (on) looks_again = LOOKS_AGAIN;
    return answer;
}

static int try_semaphore(sem_t *s) {
    REAL(sem_trywait, int, sem_t *);
    return real(s) ? errno : 0;
}

int sem_trywait(sem_t *s) {
    REAL(sem_trywait, int, sem_t *);
    if (!IDLE) maybe_give();
    return passed(BY_TRY, real(s), s, PC);
}

/* A wait ends where a handler came that ends what it interrupts. */
static int still_waits(sem_t *s) {
    pthread_testcancel();
    int error = try_semaphore(s);
    return error == EAGAIN && was_interrupted ? EINTR : error;
}

static int wait_semaphore(sem_t *s, const struct timespec *t, clockid_t c, u64 pc) {
    maybe_give();
    was_interrupted = 0;
    int error = TRIES(EAGAIN, still_waits(s), park(s, t, c), t, c);
    if (error) errno = error;
    return passed(t ? BY_TRY : 0, error ? -1 : 0, s, pc);
}

int sem_wait(sem_t *s) {
    REAL(sem_wait, int, sem_t *);
    return IDLE ? real(s) : wait_semaphore(s, NULL, 0, PC);
}

int sem_timedwait(sem_t *s, const struct timespec *t) {
    REAL(sem_timedwait, int, sem_t *, const struct timespec *);
    return IDLE ? real(s, t) : wait_semaphore(s, t, CLOCK_REALTIME, PC);
}

int sem_clockwait(sem_t *s, clockid_t c, const struct timespec *t) {
    REAL(sem_clockwait, int, sem_t *, clockid_t, const struct timespec *);
    return IDLE ? real(s, c, t) : wait_semaphore(s, t, c, PC);
}

#define MEETING_HEADS 256
static struct meeting *meetings[MEETING_HEADS];

static struct meeting *meeting_of(const void *at) {
    struct meeting **m = &meetings[((u64)at >> 3) % MEETING_HEADS];
    for (struct meeting *o = *m; o; o = o->next)
        if (o->at == at) return o;
    struct meeting *made = __libc_calloc(1, sizeof *made);
    if (!made) abort();
    *made = (struct meeting){at, 0, 0, NOBODY, *m};
    return *m = made;
}

/* The fields of glibc's barrier that do not change while threads wait. */
struct barrier {
    u32 in, round, count;
    int shared;
};

static int meet_at_barrier(pthread_barrier_t *b, u32 count, u64 pc) {
    struct meeting *m = meeting_of(b);
    u32 round = m->round;
    meet(ARRIVED, OF_MEMORY, (u64)b, 1 + (u64)round, pc);
    int is_last = ++m->inside >= count;
    if (is_last) {
        m->inside = 0, m->round++;
        unpark(b);
    }
    while (m->round == round) park(b, NULL, 0);
    meet(WENT_ON, OF_MEMORY, (u64)b, 1 + (u64)round, pc);
    return is_last ? PTHREAD_BARRIER_SERIAL_THREAD : 0;
}

int pthread_barrier_wait(pthread_barrier_t *b) {
    REAL(pthread_barrier_wait, int, pthread_barrier_t *);
    struct barrier *fields = (struct barrier *)b;
    if (IDLE) return real(b);
    maybe_give();
    if (!fields->shared) return meet_at_barrier(b, fields->count, PC);
    pass(b, PC);
    int answer = OUTSIDE(real(b));
    pass(b, PC);
    return answer;
}

/* ---- once: one thread does it, and others wait in the recorder until it is done ---- */

static void begin_once(struct meeting *m) { m->who = me; }

static void end_once(struct meeting *m) {
    m->who = NOBODY;
    unpark(m->at);
}

static void wait_for_once(struct meeting *m) {
    while (m->who != NOBODY && m->who != me) park(m->at, NULL, 0);
}

static __thread struct {
    void (*routine)(void);
    void *at;
    u64 pc;
} once;

struct doing {
    struct meeting *m;
    void *at;
    u64 pc;
    u8 is_done;
};

/* Who returns or tries again comes after this. */
static void end_doing(struct doing *d) {
    meet(ARRIVED, OF_MEMORY, (u64)d->at, 0, d->pc);
    if (!d->is_done) d->m->round++;
    end_once(d->m);
}

/* The routine may itself call pthread_once, or throw: then it is called again, and comes after the tries that failed. */
static void once_body(void) {
    __attribute__((cleanup(end_doing))) struct doing d = {meeting_of(once.at), once.at, once.pc, 0};
    begin_once(d.m);
    if (d.m->round) meet(WENT_ON, OF_MEMORY, (u64)d.at, 0, d.pc);
    once.routine();
    d.is_done = 1;
}

static int do_once(pthread_once_t *o, void (*routine)(void), u64 pc) {
    REAL(pthread_once, int, pthread_once_t *, void (*)(void));
    if (IDLE) return real(o, routine);
    maybe_give();
    wait_for_once(meeting_of(o));
    once.routine = routine, once.at = o, once.pc = pc;
    int answer = real(o, once_body);
    meet(WENT_ON, OF_MEMORY, (u64)o, 0, pc);
    return answer;
}

int pthread_once(pthread_once_t *o, void (*routine)(void)) { return do_once(o, routine, PC); }

/* The library of C++ may be linked into the program; the recorder replaces its guards. Their first byte says that the
 * static is made. */
#define GUARD(name, type, own) \
    static type (*real)(u64 *); \
    if (!real && !(real = (type(*)(u64 *))found(name, NULL))) real = own;

static int own_acquire(u64 *guard) { return !__atomic_load_n((u8 *)guard, __ATOMIC_ACQUIRE); }
static void own_release(u64 *guard) { __atomic_store_n((u8 *)guard, 1, __ATOMIC_RELEASE); }
static void own_abort(u64 *guard) { (void)guard; }

int __cxa_guard_acquire(u64 *guard) {
    GUARD("__cxa_guard_acquire", int, own_acquire);
    if (IDLE) return real(guard);
    maybe_give();
    struct meeting *m = meeting_of(guard);
    wait_for_once(m);
    int mine = real(guard), is_first = mine && !m->round;
    if (mine) begin_once(m);
    put_record(
        (struct record){.kind = is_first ? ANSWER : ATOMIC_READ, .at = (u64)guard, .size = 1, .pc = PC, .order = SC});
    return mine;
}

void __cxa_guard_release(u64 *guard) {
    GUARD("__cxa_guard_release", void, own_release);
    struct meeting *m = meeting_of(guard);
    if (!IDLE) put_record((struct record){.kind = ATOMIC_WRITE, .at = (u64)guard, .size = 1, .pc = PC, .order = SC});
    real(guard);
    end_once(m);
}

/* Who makes the static after one that failed comes after it. */
void __cxa_guard_abort(u64 *guard) {
    GUARD("__cxa_guard_abort", void, own_abort);
    struct meeting *m = meeting_of(guard);
    if (!IDLE) put_record((struct record){.kind = ATOMIC_WRITE, .at = (u64)guard, .size = 1, .pc = PC, .order = SC});
    real(guard);
    m->round++;
    end_once(m);
}

/* What a program says itself to ThreadSanitizer of an order that it keeps. */
void __tsan_release(void *at) { pass(at, PC); }
void __tsan_acquire(void *at) { pass(at, PC); }
