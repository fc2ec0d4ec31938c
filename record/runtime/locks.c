/* Mutexes and spin locks. Records an acquire after the lock is taken and a release before it is dropped, so the trace
 * never has a lock held twice. A thread tries, and waits for the holder of the lock. Interposes pthread_mutex_* and
 * pthread_spin_* that take and release, flockfile and its kin. Must not call a lock function that waits: the thread
 * has the token, and the holder could never release. */
#define OF_LOCKS
#include "locks.h"
#include "accesses.h"
#include "callers.h"
#include "deadlocks.h"
#include "events.h"
#include "follow.h"
#include "plan.h"
#include "turns.h"
#include "words.h"

static int is_past(const struct timespec *t, clockid_t clock) {
    struct timespec now;
    syscall(SYS_clock_gettime, clock, &now);
    return now.tv_sec > t->tv_sec || (now.tv_sec == t->tv_sec && now.tv_nsec >= t->tv_nsec);
}

/* The `order` of a lock's record, with BY_TRY as `how` if the call waits for nobody or not for ever. */
static u8 order_of_lock(int how) { return (u8)(how | (by_library ? BY_LIBRARY : BY_PROGRAM)); }

/* A lock is taken or released, by the program or by a library without hooks. */
static u64 put_lock_by(int how, int kind, u64 at, u64 answer, u64 pc) {
    u8 order = order_of_lock(how);
    return put_record((struct record){.kind = (u8)kind, .at = at, .answer = answer, .pc = pc, .order = order});
}

static u64 put_lock(int kind, u64 at, u64 answer, u64 pc) { return put_lock_by(0, kind, at, answer, pc); }

static int took_by(int how, int answer, const volatile void *at, u64 pc) {
    int error = errno;
    if (IDLE) return answer;
    if (answer == 0 || answer == EOWNERDEAD) put_lock_by(how, ACQUIRE, (u64)at, (u64)answer, pc);
    else put_answer(answer == EBUSY || answer == ETIMEDOUT ? TRIED : ANSWER, (u64)at, (u64)answer, pc);
    errno = error;
    return answer;
}

static int took(int answer, const volatile void *at, u64 pc) { return took_by(0, answer, at, pc); }

static int locks_itself_again(pthread_mutex_t *m) {
    return (m->__data.__kind & 3) == PTHREAD_MUTEX_ERRORCHECK_NP && m->__data.__owner == syscall(SYS_gettid);
}

static int try_mutex(pthread_mutex_t *m) {
    REAL(pthread_mutex_trylock, int, pthread_mutex_t *);
    return real(m);
}

static int unlock_mutex(pthread_mutex_t *m) {
    REAL(pthread_mutex_unlock, int, pthread_mutex_t *);
    return real(m);
}

/* A try that was refused in the recording is refused in a followed run, also if the lock is free here: that is
 * counted. */
static int refused_in_plan(pthread_mutex_t *m, u64 pc) {
    struct tick_entry *e = world_expected(TRIED, pc);
    if (!e) return 0;
    if (!try_mutex(m)) {
        unlock_mutex(m);
        plan->refused_tries++;
    }
    return (int)e->answer;
}

static int try_lock(pthread_mutex_t *m, u64 pc) {
    if (IDLE) return try_mutex(m);
    int refused = following ? refused_in_plan(m, pc) : 0;
    if (refused) return took(refused, m, pc);
    maybe_give();
    return took_by(BY_TRY, try_mutex(m), m, pc);
}

static int lock(pthread_mutex_t *m, const struct timespec *until, clockid_t clock, u64 pc) {
    REAL(pthread_mutex_lock, int, pthread_mutex_t *);
    if (IDLE || locks_itself_again(m)) return real(m);
    int refused = following && until ? refused_in_plan(m, pc) : 0;
    if (refused) return took(refused, m, pc);
    maybe_give();
    return took_by(until ? BY_TRY : 0, TRIES_LOCK(try_mutex(m), TO_WRITE, m, until, clock, pc), m, pc);
}

static int unlock(pthread_mutex_t *m, u64 pc) {
    if (IDLE) return unlock_mutex(m);
    maybe_give();
    u64 place = put_lock(RELEASE, (u64)m, 0, pc);
    int answer = unlock_mutex(m);
    if (answer) take_back(place);
    else unpark(m);
    return answer;
}

int pthread_mutex_trylock(pthread_mutex_t *m) { return try_lock(m, LOCK_PC); }
int pthread_mutex_lock(pthread_mutex_t *m) { return lock(m, NULL, 0, LOCK_PC); }
int pthread_mutex_unlock(pthread_mutex_t *m) { return unlock(m, LOCK_PC); }
int pthread_mutex_timedlock(pthread_mutex_t *m, const struct timespec *t) {
    REAL(pthread_mutex_timedlock, int, pthread_mutex_t *, const struct timespec *);
    return IDLE ? real(m, t) : lock(m, t, CLOCK_REALTIME, LOCK_PC);
}
int pthread_mutex_clocklock(pthread_mutex_t *m, clockid_t c, const struct timespec *t) {
    REAL(pthread_mutex_clocklock, int, pthread_mutex_t *, clockid_t, const struct timespec *);
    return IDLE ? real(m, c, t) : lock(m, t, c, LOCK_PC);
}

static int try_spin(pthread_spinlock_t *m) {
    REAL(pthread_spin_trylock, int, pthread_spinlock_t *);
    return real(m);
}

int pthread_spin_trylock(pthread_spinlock_t *m) {
    if (!IDLE) maybe_give();
    return took_by(BY_TRY, try_spin(m), m, LOCK_PC);
}

int pthread_spin_lock(pthread_spinlock_t *m) {
    REAL(pthread_spin_lock, int, pthread_spinlock_t *);
    if (IDLE) return real(m);
    u64 pc = LOCK_PC;
    maybe_give();
    return took(TRIES_LOCK(try_spin(m), TO_WRITE, m, NULL, 0, pc), m, pc);
}

int pthread_spin_unlock(pthread_spinlock_t *m) {
    REAL(pthread_spin_unlock, int, pthread_spinlock_t *);
    if (IDLE) return real(m);
    put_lock(RELEASE, (u64)m, 0, LOCK_PC);
    int answer = real(m);
    unpark(m);
    return answer;
}

/* The lock of a stream: who has it may take it again. The C library takes it for each of its calls too, unseen. */
static int try_stream(FILE *f) {
    REAL(ftrylockfile, int, FILE *);
    return real(f) ? EBUSY : 0;
}

int ftrylockfile(FILE *f) {
    if (!IDLE) maybe_give();
    return took_by(BY_TRY, try_stream(f), f, LOCK_PC);
}

void flockfile(FILE *f) {
    REAL(flockfile, void, FILE *);
    if (IDLE) return real(f);
    u64 pc = LOCK_PC;
    maybe_give();
    took(TRIES_LOCK(try_stream(f), TO_WRITE, f, NULL, 0, pc), f, pc);
}

void funlockfile(FILE *f) {
    REAL(funlockfile, void, FILE *);
    if (!IDLE) put_lock(RELEASE, (u64)f, 0, LOCK_PC);
    real(f);
    if (!IDLE) unpark(f);
}
