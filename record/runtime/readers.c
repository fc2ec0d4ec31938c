/* Reader-writer locks. Each reader holds another lock, and a writer holds those of all readers. Interposes
 * pthread_rwlock_* that take and release. Must not call a lock function that waits, as in locks.c. */
#define OF_READERS
#include "readers.h"
#include "accesses.h"
#include "callers.h"
#include "deadlocks.h"
#include "events.h"
#include "locks.h"
#include "turns.h"

#define MOST_READ_HOLDS 64
static __thread struct {
    void *lock;
    u32 times;
} read_holds[MOST_READ_HOLDS];
static __thread u32 read_hold_count;

/* After a call that takes the lock, or is refused: then it comes while another thread has the lock. */
static void put_taken(int how, int kind, int answer, void *at, u64 pc) {
    int refused = answer == EBUSY || answer == ETIMEDOUT;
    int becomes = !answer ? kind : refused ? TRIED : ANSWER;
    u64 by = (u64)answer;
    u8 order = order_of_lock(how);
    put_record((struct record){
        .kind = (u8)becomes, .at = (u64)at, .pc = pc, .answer = by, .order = order, .size = kind == READER_IN});
}

static int reads(int how, int answer, void *at, u64 pc) {
    if (IDLE) return answer;
    put_taken(how, READER_IN, answer, at, pc);
    if (answer) return answer;
    for (u32 i = 0; i < read_hold_count; i++)
        if (read_holds[i].lock == at) return read_holds[i].times++, answer;
    if (read_hold_count < MOST_READ_HOLDS)
        read_holds[read_hold_count].lock = at, read_holds[read_hold_count++].times = 1;
    return answer;
}

/* Whether this thread read-holds the lock; it then holds it once less. */
static int leaves_read_hold(void *at) {
    for (u32 i = 0; i < read_hold_count; i++)
        if (read_holds[i].lock == at) {
            if (!--read_holds[i].times) read_holds[i] = read_holds[--read_hold_count];
            return 1;
        }
    return 0;
}

static int writes(int how, int answer, void *at, u64 pc) {
    if (!IDLE) put_taken(how, WRITER, answer, at, pc);
    return answer;
}

static int try_reading(pthread_rwlock_t *m) {
    REAL(pthread_rwlock_tryrdlock, int, pthread_rwlock_t *);
    return real(m);
}

static int try_writing(pthread_rwlock_t *m) {
    REAL(pthread_rwlock_trywrlock, int, pthread_rwlock_t *);
    return real(m);
}

/* The library refuses a thread that has the lock as a writer. */
static int is_own(pthread_rwlock_t *m) { return m->__data.__cur_writer == syscall(SYS_gettid); }

/* A reader may be let in later than now for many reasons: it tries again. */
static int read_lock(pthread_rwlock_t *m, const struct timespec *t, clockid_t c, u64 pc) {
    maybe_give();
    return reads(t ? BY_TRY : 0, TRIES_LOCK(try_reading(m), TO_READ, m, t, c, pc), m, pc);
}

static int write_lock(pthread_rwlock_t *m, const struct timespec *t, clockid_t c, u64 pc) {
    maybe_give();
    return writes(t ? BY_TRY : 0, TRIES_LOCK(try_writing(m), TO_WRITE, m, t, c, pc), m, pc);
}

int pthread_rwlock_tryrdlock(pthread_rwlock_t *m) {
    if (!IDLE) maybe_give();
    return reads(BY_TRY, try_reading(m), m, LOCK_PC);
}

int pthread_rwlock_trywrlock(pthread_rwlock_t *m) {
    if (!IDLE) maybe_give();
    return writes(BY_TRY, try_writing(m), m, LOCK_PC);
}

int pthread_rwlock_rdlock(pthread_rwlock_t *m) {
    REAL(pthread_rwlock_rdlock, int, pthread_rwlock_t *);
    return IDLE || is_own(m) ? real(m) : read_lock(m, NULL, 0, LOCK_PC);
}

int pthread_rwlock_wrlock(pthread_rwlock_t *m) {
    REAL(pthread_rwlock_wrlock, int, pthread_rwlock_t *);
    return IDLE || is_own(m) ? real(m) : write_lock(m, NULL, 0, LOCK_PC);
}

int pthread_rwlock_timedrdlock(pthread_rwlock_t *m, const struct timespec *t) {
    REAL(pthread_rwlock_timedrdlock, int, pthread_rwlock_t *, const struct timespec *);
    return IDLE || is_own(m) ? real(m, t) : read_lock(m, t, CLOCK_REALTIME, LOCK_PC);
}

int pthread_rwlock_timedwrlock(pthread_rwlock_t *m, const struct timespec *t) {
    REAL(pthread_rwlock_timedwrlock, int, pthread_rwlock_t *, const struct timespec *);
    return IDLE || is_own(m) ? real(m, t) : write_lock(m, t, CLOCK_REALTIME, LOCK_PC);
}

int pthread_rwlock_clockrdlock(pthread_rwlock_t *m, clockid_t c, const struct timespec *t) {
    REAL(pthread_rwlock_clockrdlock, int, pthread_rwlock_t *, clockid_t, const struct timespec *);
    return IDLE || is_own(m) ? real(m, c, t) : read_lock(m, t, c, LOCK_PC);
}

int pthread_rwlock_clockwrlock(pthread_rwlock_t *m, clockid_t c, const struct timespec *t) {
    REAL(pthread_rwlock_clockwrlock, int, pthread_rwlock_t *, clockid_t, const struct timespec *);
    return IDLE || is_own(m) ? real(m, c, t) : write_lock(m, t, c, LOCK_PC);
}

int pthread_rwlock_unlock(pthread_rwlock_t *m) {
    REAL(pthread_rwlock_unlock, int, pthread_rwlock_t *);
    if (IDLE) return real(m);
    maybe_give();
    put_lock(leaves_read_hold(m) ? READER_OUT : RELEASE, (u64)m, 0, LOCK_PC);
    int answer = real(m);
    unpark(m);
    return answer;
}
