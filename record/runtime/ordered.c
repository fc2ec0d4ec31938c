/* Loops of OpenMP whose iterations have an order. Interposes GOMP_ordered_*, GOMP_loop_ordered_* and GOMP_doacross_*.
 * Must not enter the library with the token, as in openmp.c. */
#define OF_ORDERED
#include "ordered.h"
#include "accesses.h"
#include "atomics.h"
#include "callers.h"
#include "events.h"
#include "meetings.h"
#include "openmp.h"
#include "plan.h"
#include "turns.h"

/* ---- parts that come in the order of their turns ---- */

void GOMP_ordered_start(void) {
    REAL(GOMP_ordered_start, void, void);
    if (!IDLE) maybe_give(), give();
    real();
    if (!IDLE) take(), put_of(OF_TEAM, PASS, my_team, PC);
}

void GOMP_ordered_end(void) {
    REAL(GOMP_ordered_end, void, void);
    if (!IDLE) put_of(OF_TEAM, PASS, my_team, PC);
    real();
}

/* The next turns of such a loop: the call waits for those before, takes its share, and lets those after it go on. */
static void go_on_in_order(u64 pc) {
    REAL(GOMP_ordered_start, void, void);
    maybe_give();
    give();
    real();
    take();
    meet_team(ARRIVED, my_team, my_share, pc);
    put_of(OF_TEAM, PASS, my_team, pc);
}

#define NEXT_ORDERED(name, T) \
    _Bool name(T *from, T *to) { \
        REAL(name, _Bool, T *, T *); \
        if (!IDLE) go_on_in_order(PC); \
        return real(from, to); \
    }
#define ORDERED(kind) \
    NEXT_ORDERED(GOMP_loop_ordered_##kind##_next, long) \
    NEXT_ORDERED(GOMP_loop_ull_ordered_##kind##_next, ull)
ORDERED(static)
ORDERED(dynamic)
ORDERED(guided)
ORDERED(runtime)

#define FIRST_ORDERED(kind) \
    SHARES(_Bool, GOMP_loop_ordered_##kind##_start, 1, (long a, long b, long by, long n, long *from, long *to), \
           (a, b, by, n, from, to)) \
    SHARES(_Bool, GOMP_loop_ull_ordered_##kind##_start, 1, \
           (_Bool up, ull a, ull b, ull by, ull n, ull * from, ull * to), (up, a, b, by, n, from, to))
FIRST_ORDERED(dynamic)
FIRST_ORDERED(guided)
SHARES(_Bool, GOMP_loop_ordered_runtime_start, 1, (long a, long b, long by, long *from, long *to), (a, b, by, from, to))
SHARES(_Bool, GOMP_loop_ull_ordered_runtime_start, 1, (_Bool up, ull a, ull b, ull by, ull *from, ull *to),
       (up, a, b, by, from, to))

/* ---- iterations that wait for others: `ordered(n)` with `depend(sink: ..)` and `depend(source)`. Each is a meeting: it
 * comes there at its source, and those that have it as a sink go on from it. They wait in the recorder, since the library
 * spins ---- */

#define MOST_ITERATIONS (1ull << 33)

static struct doacross *new_doacross(u32 dimensions, const u64 *sizes) {
    struct doacross *d = __libc_calloc(1, sizeof *d);
    u64 all = 1;
    if (!d) abort();
    d->share = my_share, d->dimensions = dimensions, d->number = __atomic_add_fetch(&teams, 1, SC);
    for (u32 k = 0; k < dimensions && k < MOST_DIMENSIONS; k++) {
        d->size[k] = sizes[k];
        if (__builtin_mul_overflow(all, sizes[k], &all)) all = ~0ull;
    }
    if (dimensions <= MOST_DIMENSIONS && all <= MOST_ITERATIONS) d->came = __libc_calloc(all / 8 + 1, 1);
    return d;
}

/* The thread comes to such a loop; the first one of its team makes it. */
static void begin_doacross(u32 dimensions, const u64 *sizes) {
    my_share = my_round++;
    my_loop = NULL;
    if (!my_region || me >= MOST_THREADS) return;
    for (my_loop = my_region->loops; my_loop && my_loop->share != my_share;) my_loop = my_loop->next;
    if (my_loop) return;
    my_loop = new_doacross(dimensions, sizes);
    my_loop->next = my_region->loops;
    my_region->loops = my_loop;
}

/* The number of an iteration among all of the loop, from 1 on; 0 if the loop has no such iteration. */
static u64 iteration_of(const struct doacross *d, const u64 *at) {
    u64 k = 0;
    for (u32 i = 0; i < d->dimensions; i++) {
        if (at[i] >= d->size[i]) return 0;
        k = k * d->size[i] + at[i];
    }
    return k + 1;
}

static void comes_to_iteration(struct doacross *d, const u64 *at, u64 pc) {
    u64 k = iteration_of(d, at);
    if (!k) return;
    maybe_give();
    meet(ARRIVED, OF_TEAM, d->number, k, pc);
    d->came[k / 8] |= (u8)(1u << k % 8);
    unpark(d);
}

static void goes_on_from_iteration(struct doacross *d, const u64 *at, u64 pc) {
    u64 k = iteration_of(d, at);
    if (!k) return;
    maybe_give();
    while (!(d->came[k / 8] >> k % 8 & 1)) park(d, NULL, 0);
    meet(WENT_ON, OF_TEAM, d->number, k, pc);
}

static int is_known_loop(void) { return !IDLE && my_loop && my_loop->came; }

/* The library gets each source, since a loop may go on when the recording has ended. */
#define COMES_TO(name) \
    void name(u64 *at) { \
        REAL(name, void, u64 *); \
        if (is_known_loop()) comes_to_iteration(my_loop, at, PC); \
        real(at); \
    }
#define GOES_ON(name) \
    void name(u64 first, ...) { \
        REAL(name, void, u64, ...); \
        u64 at[MOST_DIMENSIONS] = {first}; \
        u32 n = my_loop && my_loop->dimensions < MOST_DIMENSIONS ? my_loop->dimensions : MOST_DIMENSIONS; \
        va_list more; \
        va_start(more, first); \
        for (u32 k = 1; k < n; k++) at[k] = va_arg(more, u64); \
        va_end(more); \
        int known = is_known_loop(), idle = IDLE || known; \
        if (known) goes_on_from_iteration(my_loop, at, PC); \
        if (!idle) give(); \
        real(at[0], at[1], at[2], at[3], at[4], at[5], at[6], at[7], at[8], at[9], at[10], at[11], at[12], at[13], \
             at[14], at[15]); \
        if (!idle) take(); \
    }
COMES_TO(GOMP_doacross_post)
COMES_TO(GOMP_doacross_ull_post)
GOES_ON(GOMP_doacross_wait)
GOES_ON(GOMP_doacross_ull_wait)

/* The first part of such a loop; the next parts are as those of other loops. */
#define BEGINS_LOOP(name, shares, given, passed_on) \
    _Bool name given { \
        static _Bool(*real) given; \
        if (!real) real = (_Bool(*) given)next(#name, NULL); \
        if (!IDLE) { \
            begin_doacross(n, sizes); \
            if (shares) take_share(PC); \
        } \
        return real passed_on; \
    }
#define LOOPS(of, T) \
    BEGINS_LOOP(of##_doacross_static_start, 0, (unsigned n, u64 *sizes, T part, T *from, T *to), \
                (n, sizes, part, from, to)) \
    BEGINS_LOOP(of##_doacross_dynamic_start, 1, (unsigned n, u64 *sizes, T part, T *from, T *to), \
                (n, sizes, part, from, to)) \
    BEGINS_LOOP(of##_doacross_guided_start, 1, (unsigned n, u64 *sizes, T part, T *from, T *to), \
                (n, sizes, part, from, to)) \
    BEGINS_LOOP(of##_doacross_runtime_start, 1, (unsigned n, u64 *sizes, T *from, T *to), (n, sizes, from, to)) \
    BEGINS_LOOP(of##_doacross_start, 1, \
                (unsigned n, u64 *sizes, long how, T part, T *from, T *to, u64 *sums, void **kept), \
                (n, sizes, how, part, from, to, sums, kept))
LOOPS(GOMP_loop, long)
LOOPS(GOMP_loop_ull, ull)

static void end_loops(struct region *r) {
    while (r->loops) {
        struct doacross *d = r->loops;
        r->loops = d->next;
        __libc_free(d->came);
        __libc_free(d);
    }
}
