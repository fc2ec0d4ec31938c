/* Atomics: done in the thread's turn, and atomic all the same, since a turn may be taken by force. Interposes
 * __tsan_atomic* and the library calls __atomic_* of 16 bytes and of any size. Must not give the token between the
 * record and the operation: another thread's operation would come between. */
#define OF_ATOMICS
#include "atomics.h"
#include "accesses.h"
#include "callers.h"
#include "deadlocks.h"
#include "events.h"
#include "follow.h"
#include "values.h"
#include "words.h"

/* Where the library of C++ counts who waits at an atomic variable, a semaphore, a latch or a barrier, so that it wakes
 * nobody in vain. Who waits looks at the variable itself again, so these counts order nothing. */
extern char waiter_pool[] __asm__("_ZZNSt8__detail18__waiter_pool_base6_S_forEPKvE3__w") __attribute__((weak));
#define WAITER_POOL (16 * 128)
static int is_waiter_count(const volatile void *at) { return waiter_pool && (u64)at - (u64)waiter_pool < WAITER_POOL; }

/* The record of an atomic access comes before it; its place. One that `may_fail` becomes a read if it does. */
static u64 atomic_as(int kind, const volatile void *at, u64 size, int order, u64 pc, int may_fail) {
    if (IDLE) return NO_PLACE;
    if (keeps_values) settle_value();
    if (following) about_to(kind, (u64)at, size, pc);
    look_for_waiting((u64)at, pc);
    maybe_give();
    see_place(pc);
    if (is_waiter_count(at)) order = __ATOMIC_RELAXED;
    struct record r = {.kind = (u8)kind, .at = (u64)at, .size = (u32)size, .pc = pc, .order = (u8)order};
    u64 place = may_fail ? put_open_record(r) : put_record(r);
    if (keeps_values) note_value(place, kind, at, size);
    return place;
}

static u64 atomic_(int kind, const volatile void *at, u64 size, int order, u64 pc) {
    return atomic_as(kind, at, size, order, pc, 0);
}

/* The update at a place came to nothing. */
static void become_read(u64 place, int order) {
    if (place != NO_PLACE) long_at(place)->kind = ATOMIC_READ, long_at(place)->order = (u8)order;
}

#define UPDATE(bits, T, name, call) \
    T __tsan_atomic##bits##_##name(volatile T *a, T v, int order) { \
        atomic_(ATOMIC_UPDATE, a, bits / 8, order, PC); \
        return call(a, v, SC); \
    }
/* One that failed is a read. */
#define EXCHANGE(bits, T) \
    static int exchange##bits(volatile T *a, T *wanted, T v, int order, int failed, u64 pc) { \
        u64 place = atomic_as(ATOMIC_UPDATE, a, bits / 8, order, pc, 1); \
        int done = compare##bits(a, wanted, v); \
        if (place != NO_PLACE) check_swap(done, pc); \
        if (!done) become_read(place, failed); \
        return done; \
    } \
    int __tsan_atomic##bits##_compare_exchange_strong(volatile T *a, T *w, T v, int m, int f) { \
        return exchange##bits(a, w, v, m, f, PC); \
    } \
    int __tsan_atomic##bits##_compare_exchange_weak(volatile T *a, T *w, T v, int m, int f) { \
        return exchange##bits(a, w, v, m, f, PC); \
    } \
    T __tsan_atomic##bits##_compare_exchange_val(volatile T *a, T w, T v, int m, int f) { \
        exchange##bits(a, &w, v, m, f, PC); \
        return w; \
    }
/* clang-format off */
#define ATOMICS(bits, T) \
    T __tsan_atomic##bits##_load(const volatile T *a, int order) { \
        atomic_(ATOMIC_READ, a, bits / 8, order, PC); \
        return __atomic_load_n(a, SC); \
    } \
    void __tsan_atomic##bits##_store(volatile T *a, T v, int order) { \
        atomic_(ATOMIC_WRITE, a, bits / 8, order, PC); \
        __atomic_store_n(a, v, SC); \
    } \
    UPDATE(bits, T, exchange, __atomic_exchange_n) UPDATE(bits, T, fetch_add, __atomic_fetch_add) \
    UPDATE(bits, T, fetch_sub, __atomic_fetch_sub) UPDATE(bits, T, fetch_and, __atomic_fetch_and) \
    UPDATE(bits, T, fetch_or, __atomic_fetch_or) UPDATE(bits, T, fetch_xor, __atomic_fetch_xor) \
    UPDATE(bits, T, fetch_nand, __atomic_fetch_nand) \
    static int compare##bits(volatile T *a, T *wanted, T v) { \
        return __atomic_compare_exchange_n(a, wanted, v, 0, SC, SC); \
    } \
    EXCHANGE(bits, T)
/* clang-format on */
ATOMICS(8, u8)
ATOMICS(16, u16)
ATOMICS(32, u32)
ATOMICS(64, u64)

/* Not every processor has these for 16 bytes: a lock replaces them. */
static volatile u8 wide_lock;
static void lock_wide(void) {
    while (__atomic_exchange_n(&wide_lock, 1, SC)) syscall(SYS_sched_yield);
}
static void unlock_wide(void) { __atomic_store_n(&wide_lock, 0, SC); }
/* Clang calls those that count by the names of the library of atomics. */
#define WIDE(name, value) \
    static u128 wide_##name(volatile u128 *a, u128 v, int order, u64 pc) { \
        atomic_(ATOMIC_UPDATE, a, 16, order, pc); \
        lock_wide(); \
        u128 old = *a; \
        *a = (value); \
        unlock_wide(); \
        return old; \
    } \
    u128 __tsan_atomic128_##name(volatile u128 *a, u128 v, int order) { return wide_##name(a, v, order, PC); } \
    u128 racebench_wide_##name(volatile u128 *a, u128 v, int order) __asm__("__atomic_" #name "_16"); \
    u128 racebench_wide_##name(volatile u128 *a, u128 v, int order) { return wide_##name(a, v, order, PC); }
u128 __tsan_atomic128_load(const volatile u128 *a, int order) {
    atomic_(ATOMIC_READ, a, 16, order, PC);
    lock_wide();
    u128 v = *a;
    unlock_wide();
    return v;
}
void __tsan_atomic128_store(volatile u128 *a, u128 v, int order) {
    atomic_(ATOMIC_WRITE, a, 16, order, PC);
    lock_wide();
    *a = v;
    unlock_wide();
}
/* clang-format off */
WIDE(exchange, v)
WIDE(fetch_add, old + v)
WIDE(fetch_sub, old - v)
WIDE(fetch_and, old & v)
WIDE(fetch_or, old | v)
WIDE(fetch_xor, old ^ v)
WIDE(fetch_nand, ~(old & v))
/* clang-format on */
static int compare128(volatile u128 *a, u128 *wanted, u128 v) {
    lock_wide();
    u128 old = *a;
    int same = old == *wanted;
    if (same) *a = v;
    else *wanted = old;
    unlock_wide();
    return same;
}
EXCHANGE(128, u128)

void __tsan_atomic_thread_fence(int order) {
    if (!IDLE) put_record((struct record){.kind = FENCE, .pc = PC, .order = (u8)order});
    __atomic_thread_fence(SC);
}
void __tsan_atomic_signal_fence(int order) { (void)order; }

/* ---- atomics of any size, which the compiler calls by names that C has for itself ---- */

void racebench_load(size_t n, const volatile void *at, void *to, int order) __asm__("__atomic_load");
void racebench_store(size_t n, volatile void *at, void *from, int order) __asm__("__atomic_store");
void racebench_exchange(size_t n, volatile void *at, void *from, void *to, int order) __asm__("__atomic_exchange");
_Bool racebench_compare(size_t n, volatile void *at, void *wanted, void *from, int order,
                        int failed) __asm__("__atomic_compare_exchange");

static void copy(volatile void *to, const volatile void *from, size_t n) {
    for (size_t k = 0; k < n; k++) ((volatile u8 *)to)[k] = ((const volatile u8 *)from)[k];
}

void racebench_load(size_t n, const volatile void *at, void *to, int order) {
    atomic_(ATOMIC_READ, at, n, order, PC);
    lock_wide();
    copy(to, at, n);
    unlock_wide();
}

void racebench_store(size_t n, volatile void *at, void *from, int order) {
    atomic_(ATOMIC_WRITE, at, n, order, PC);
    lock_wide();
    copy(at, from, n);
    unlock_wide();
}

void racebench_exchange(size_t n, volatile void *at, void *from, void *to, int order) {
    atomic_(ATOMIC_UPDATE, at, n, order, PC);
    lock_wide();
    for (size_t k = 0; k < n; k++) {
        u8 old = ((volatile u8 *)at)[k];
        ((volatile u8 *)at)[k] = ((u8 *)from)[k];
        ((u8 *)to)[k] = old;
    }
    unlock_wide();
}

static _Bool compare_wide(size_t n, volatile void *at, void *wanted, void *from) {
    size_t same = 0;
    lock_wide();
    while (same < n && ((volatile u8 *)at)[same] == ((u8 *)wanted)[same]) same++;
    copy(same == n ? at : wanted, same == n ? from : at, n);
    unlock_wide();
    return same == n;
}

_Bool racebench_compare(size_t n, volatile void *at, void *wanted, void *from, int order, int failed) {
    u64 place = atomic_as(ATOMIC_UPDATE, at, n, order, PC, 1);
    _Bool done = compare_wide(n, at, wanted, from);
    if (place != NO_PLACE) check_swap(done, PC);
    if (!done) become_read(place, failed);
    return done;
}
