/* The hooks before accesses, which the compiler puts in, and the memory functions. Interposes __tsan_read*,
 * __tsan_write*, __tsan_mem* and, by the linker's --wrap, memcpy, memmove and memset. Must not call these three by
 * their plain names, which lead back here: __real_memcpy is the library's. */
#define OF_ACCESSES
#include "accesses.h"
#include "callers.h"
#include "events.h"
#include "follow.h"
#include "turns.h"
#include "values.h"
#include "words.h"

/* A turn ends after a number of accesses, which is drawn below twice `--yield`. If a turn brought no place of code
 * that is new for its thread, the thread's next one is twice as long, up to LONGEST_TURN times. */
#define LONGEST_TURN 16
/* For its first accesses a thread gives the token away at the rate of the seed. A short thread would else never be
 * interrupted. */
#define YOUNG 4096
static const u32 young_rates[] = {2, 40, 5};
static u32 young_in = 40;
/* Accesses of a turn where nothing is recorded any more. */
#define UNRECORDED_TURN 65536
#define SEEN_PLACES 65536
static u8 seen_places[SEEN_PLACES];
static __thread u32 longer;
static __thread u8 news;
/* Where this thread's last two reads were since it wrote: one that reads the same again and again, and writes nothing,
 * waits for another thread. */
static __thread struct { u64 pc, at; } last_read[2];

static void begin_turn(int waits) {
    longer = news || waits || !longer ? 1 : longer < LONGEST_TURN ? 2 * longer : longer;
    u32 rate = tick < YOUNG && young_in < one_in ? young_in : one_in;
    left_of_turn = 1 + draw(2 * rate - 1);
    left_of_turn *= longer;
    if (is_full && !waits) left_of_turn = UNRECORDED_TURN;
    news = 0;
}

static inline void see_place(u64 pc) {
    u64 hash = (pc ^ (u64)me << 40) * 0x9e3779b97f4a7c15ull >> 48;
    if (!seen_places[hash]) seen_places[hash] = news = 1;
}

/* One hook in some gives the token away before it is passed. */
static inline void maybe_give(void) {
    keep_turn();
    if (following && !inside) {
        arrive(CLOCK(tick + 1, 0));
        return;
    }
    if (!left_of_turn) begin_turn(0);
    if (--left_of_turn) return;
    if (waiting_count) give_and_take();
}

/* Before a read: whether it is that of a loop that waits. */
static inline void look_for_waiting(u64 at, u64 pc) {
    int again = (last_read[0].pc == pc && last_read[0].at == at) || (last_read[1].pc == pc && last_read[1].at == at);
    last_read[1] = last_read[0];
    last_read[0].pc = pc, last_read[0].at = at;
    if (again && left_of_turn > 2 * (u64)one_in) begin_turn(1);
}

static inline __attribute__((always_inline)) u64 put_access(int kind, u64 at, u64 size, u64 pc) {
    if (is_full && !following) {
        head->lost++;
        return NO_PLACE;
    }
    see_place(pc);
    return put_plain(kind, at, size, pc);
}

/* An access of a call that has been made, in the turn that it was made in: no other thread comes between. */
static void accessed(int kind, const volatile void *at, u64 size, u64 pc) {
    if (!IDLE && size) put_access(kind, (u64)at, size, pc);
}

/* Nearly all hooks are of this kind: all of it is inlined. The place of the record. */
static inline __attribute__((always_inline)) u64 come(int kind, u64 at, u64 size, u64 pc) {
    if (following) about_to(kind, at, size, pc);
    if (kind == READ) look_for_waiting(at, pc);
    else last_read[0].pc = last_read[1].pc = 0;
    maybe_give();
    return put_access(kind, at, size, pc);
}

static __attribute__((noinline)) void come_to_access(int kind, u64 at, u64 size, u64 pc) { come(kind, at, size, pc); }

static __attribute__((noinline)) void come_with_value(int kind, u64 at, u64 size, u64 pc) {
    settle_value();
    note_value(come(kind, at, size, pc), kind, (void *)at, size);
}

/* An access of the program's code. */
static inline void hook(int kind, const volatile void *at, u64 size, u64 pc) {
    if (IDLE) return;
    if (keeps_values) come_with_value(kind, (u64)at, size, pc);
    else come_to_access(kind, (u64)at, size, pc);
}

/* An access of a call has no value: the call is made later than this hook. */
static inline void access_(int kind, const volatile void *at, u64 size, u64 pc) {
    if (IDLE || !size) return;
    if (keeps_values) settle_value();
    come_to_access(kind, (u64)at, size, pc);
}

/* Before a call whose accesses are known when it has been made: another thread may come first. */
static void comes_to_call(void) {
    if (IDLE) return;
    if (keeps_values) settle_value();
    maybe_give();
}

/* What a call wrote, where it wrote something: it is a tick all the same. */
static void wrote(const volatile void *at, u64 size, u64 pc) {
    int error = errno;
    if (size) accessed(WRITE, at, size, pc);
    else pass_silently(pc);
    errno = error;
}

/* What a call read, if that is known only when it has been made: before what it wrote. */
static void went_over(const volatile void *at, u64 size, u64 pc) {
    int error = errno;
    if (at) accessed(READ, at, size, pc);
    errno = error;
}

#define ACCESSES(n) \
    void __tsan_read##n(void *a) { hook(READ, a, n, PC); } \
    void __tsan_write##n(void *a) { hook(WRITE, a, n, PC); } \
    void __tsan_unaligned_read##n(void *a) { hook(READ, a, n, PC); } \
    void __tsan_unaligned_write##n(void *a) { hook(WRITE, a, n, PC); } \
    void __tsan_volatile_read##n(void *a) { hook(READ, a, n, PC); } \
    void __tsan_volatile_write##n(void *a) { hook(WRITE, a, n, PC); } \
    void __tsan_unaligned_volatile_read##n(void *a) { hook(READ, a, n, PC); } \
    void __tsan_unaligned_volatile_write##n(void *a) { hook(WRITE, a, n, PC); } \
    void __tsan_read_write##n(void *a) { \
        access_(READ, a, n, PC); \
        access_(WRITE, a, n, PC); \
    } \
    void __tsan_unaligned_read_write##n(void *a) { \
        access_(READ, a, n, PC); \
        access_(WRITE, a, n, PC); \
    }
ACCESSES(1)
ACCESSES(2)
ACCESSES(4)
ACCESSES(8)
ACCESSES(16)

void __tsan_read_range(void *a, unsigned long n) { access_(READ, a, n, PC); }
void __tsan_write_range(void *a, unsigned long n) { access_(WRITE, a, n, PC); }
void __tsan_vptr_read(void **a) { access_(READ, a, sizeof *a, PC); }
/* Each constructor sets the table of its class; setting the same one again is no write. */
void __tsan_vptr_update(void **a, void *v) {
    if (*a != v) access_(WRITE, a, sizeof *a, PC);
    else pass_silently(PC);
}
void __tsan_ignore_thread_begin(void) {}
void __tsan_ignore_thread_end(void) {}

/* ---- memory functions: by the linker's --wrap, and by the names that newer compilers call ---- */

static void copied(void *to, const void *from, size_t n, u64 pc) {
    access_(READ, from, n, pc);
    access_(WRITE, to, n, pc);
}
void *__wrap_memcpy(void *to, const void *from, size_t n) {
    copied(to, from, n, PC);
    return __real_memcpy(to, from, n);
}
void *__wrap_memmove(void *to, const void *from, size_t n) {
    copied(to, from, n, PC);
    return __real_memmove(to, from, n);
}
void *__wrap_memset(void *to, int c, size_t n) {
    access_(WRITE, to, n, PC);
    return __real_memset(to, c, n);
}
void *__tsan_memcpy(void *to, const void *from, size_t n) {
    copied(to, from, n, PC);
    return __real_memcpy(to, from, n);
}
void *__tsan_memmove(void *to, const void *from, size_t n) {
    copied(to, from, n, PC);
    return __real_memmove(to, from, n);
}
void *__tsan_memset(void *to, int c, size_t n) {
    access_(WRITE, to, n, PC);
    return __real_memset(to, c, n);
}
