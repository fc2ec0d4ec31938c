/* The locks and condition variables of Rust's standard library. record/rustlang/library.py puts calls of the functions
 * below at the start of the library's own. If nothing is recorded they do nothing, and the library's function goes
 * on. Interposes nothing of C. Must not wait in a lock of the library, as in locks.c. */
#include "accesses.h"
#include "atomics.h"
#include "callers.h"
#include "conditions.h"
#include "deadlocks.h"
#include "follow.h"
#include "locks.h"
#include "plan.h"
#include "readers.h"
#include "turns.h"

enum { NOT_RECORDED = -1, REFUSED, TAKEN };

static void wake_in_kernel(u32 *word) { raw_syscall(SYS_futex, word, FUTEX_WAKE_PRIVATE, INT_MAX, NULL, NULL, 0); }

/* Whether a plan has a try here that is refused; if the lock is free all the same, that is counted. */
static int is_refused_in_plan(int is_free, u64 pc) {
    if (!following || !world_expected(TRIED, pc)) return 0;
    plan->refused_tries += (u64)is_free;
    return 1;
}

/* ---- Mutex: a word that is 0 if the lock is free ---- */

static int try_word(u32 *word) {
    u32 is_free = 0;
    return __atomic_compare_exchange_n(word, &is_free, 1, 0, SC, SC) ? 0 : EBUSY;
}

int racebench_rust_lock(u32 *word) {
    if (IDLE) return NOT_RECORDED;
    u64 pc = LOCK_PC;
    maybe_give();
    took(TRIES_LOCK(try_word(word), TO_WRITE, word, NULL, 0, pc), word, pc);
    return TAKEN;
}

int racebench_rust_try_lock(u32 *word) {
    if (IDLE) return NOT_RECORDED;
    u64 pc = LOCK_PC;
    if (is_refused_in_plan(!*(volatile u32 *)word, pc)) return took(EBUSY, word, pc), REFUSED;
    maybe_give();
    return took_by(BY_TRY, try_word(word), word, pc) ? REFUSED : TAKEN;
}

/* A thread that began to wait before the recording waits in the kernel. */
static void free_word(u32 *word) {
    if (__atomic_exchange_n(word, 0, SC) > 1) wake_in_kernel(word);
    unpark(word);
}

int racebench_rust_unlock(u32 *word) {
    if (IDLE) return NOT_RECORDED;
    u64 pc = LOCK_PC;
    maybe_give();
    put_lock(RELEASE, (u64)word, 0, pc);
    free_word(word);
    return TAKEN;
}

/* ---- Condvar: as pthread_cond_t, with a word for its name ---- */

/* Waits this many nanoseconds, or without end if they are negative. REFUSED if the time is over. */
int racebench_rust_wait(u32 *word, u32 *mutex, int64_t nanoseconds) {
    if (IDLE) return NOT_RECORDED;
    u64 pc = LOCK_PC;
    struct waiter w = {(pthread_cond_t *)word, NULL, pc, 0, NULL};
    struct timespec end;
    syscall(SYS_clock_gettime, CLOCK_MONOTONIC, &end);
    int64_t rest = end.tv_nsec + (nanoseconds < 0 ? 0 : nanoseconds % 1000000000);
    end.tv_sec += nanoseconds / 1000000000 + rest / 1000000000;
    end.tv_nsec = rest % 1000000000;
    put_lock(RELEASE, (u64)mutex, 0, pc);
    add_waiter(&w);
    free_word(mutex);
    if (following) arrive(CLOCK(tick + 1, 0));
    int outcome = following ? wakes_by_plan(&w) : sleeps(&w, nanoseconds < 0 ? NULL : &end, CLOCK_MONOTONIC);
    remove_waiter(&w);
    TRIES_LOCK(try_word(mutex), TO_WRITE, mutex, NULL, 0, pc);
    put_lock(ACQUIRE, (u64)mutex, (u64)outcome, pc);
    return outcome ? REFUSED : TAKEN;
}

int racebench_rust_notify(u32 *word, int all) {
    if (IDLE) return NOT_RECORDED;
    keep_turn();
    wake_waiters((pthread_cond_t *)word, all);
    return TAKEN;
}

/* ---- RwLock: a word that counts the readers, all bits of the count for a writer, and two bits for who waits ---- */

#define RUST_COUNT ((1u << 30) - 1)

static int try_state(u32 *state, u32 most, u32 more) {
    u32 s = __atomic_load_n(state, SC);
    while ((s & RUST_COUNT) <= most)
        if (__atomic_compare_exchange_n(state, &s, s + more, 0, SC, SC)) return 0;
    return EBUSY;
}

static int try_reader(u32 *state) { return try_state(state, RUST_COUNT - 2, 1); }
static int try_writer(u32 *state) { return try_state(state, 0, RUST_COUNT); }

int racebench_rust_read(u32 *state) {
    if (IDLE) return NOT_RECORDED;
    u64 pc = LOCK_PC;
    maybe_give();
    put_taken(0, READER_IN, TRIES_LOCK(try_reader(state), TO_READ, state, NULL, 0, pc), state, pc);
    return TAKEN;
}

int racebench_rust_write(u32 *state) {
    if (IDLE) return NOT_RECORDED;
    u64 pc = LOCK_PC;
    maybe_give();
    put_taken(0, WRITER, TRIES_LOCK(try_writer(state), TO_WRITE, state, NULL, 0, pc), state, pc);
    return TAKEN;
}

static int tried_state(int kind, u32 *state, u64 pc) {
    int is_reader = kind == READER_IN, answer = EBUSY;
    u32 most = is_reader ? RUST_COUNT - 2 : 0;
    if (!is_refused_in_plan((*(volatile u32 *)state & RUST_COUNT) <= most, pc)) {
        maybe_give();
        answer = is_reader ? try_reader(state) : try_writer(state);
    }
    put_taken(BY_TRY, kind, answer, state, pc);
    return answer ? REFUSED : TAKEN;
}

int racebench_rust_try_read(u32 *state) { return IDLE ? NOT_RECORDED : tried_state(READER_IN, state, LOCK_PC); }
int racebench_rust_try_write(u32 *state) { return IDLE ? NOT_RECORDED : tried_state(WRITER, state, LOCK_PC); }

/* The word becomes that of `fewer` readers less, or of no writer; who waits looks again. */
static void free_state(u32 *state, u32 fewer) {
    u32 s = __atomic_sub_fetch(state, fewer, SC);
    if (s & ~RUST_COUNT) {
        __atomic_and_fetch(state, RUST_COUNT, SC);
        __atomic_add_fetch(state + 1, 1, SC);
        wake_in_kernel(state), wake_in_kernel(state + 1);
    }
    unpark(state);
}

int racebench_rust_read_unlock(u32 *state) {
    if (IDLE) return NOT_RECORDED;
    u64 pc = LOCK_PC;
    maybe_give();
    put_lock(READER_OUT, (u64)state, 0, pc);
    free_state(state, 1);
    return TAKEN;
}

int racebench_rust_write_unlock(u32 *state) {
    if (IDLE) return NOT_RECORDED;
    u64 pc = LOCK_PC;
    maybe_give();
    put_lock(RELEASE, (u64)state, 0, pc);
    free_state(state, RUST_COUNT);
    return TAKEN;
}

/* A writer becomes a reader. In the trace the lock is free in between. */
int racebench_rust_downgrade(u32 *state) {
    if (IDLE) return NOT_RECORDED;
    u64 pc = LOCK_PC;
    maybe_give();
    put_lock(RELEASE, (u64)state, 0, pc);
    free_state(state, RUST_COUNT - 1);
    put_taken(0, READER_IN, 0, state, pc);
    return TAKEN;
}
