/* OpenMP of GCC (libgomp): a team meets at the begin and the end of its region, and at its barriers; critical sections
 * are locks. The threads of the team have the token only while they are in code of the program. Interposes
 * GOMP_parallel, GOMP_loop_*, GOMP_barrier, GOMP_critical_*, omp_set_lock and their kin. Must not enter the library
 * with the token: it waits there for the whole team. */
#define OF_OPENMP
#include "openmp.h"
#include "accesses.h"
#include "atomics.h"
#include "callers.h"
#include "deadlocks.h"
#include "events.h"
#include "follow.h"
#include "locks.h"
#include "meetings.h"
#include "ordered.h"
#include "threads.h"
#include "turns.h"

static u32 teams;
/* The team of this thread, the how many-th meeting of the team its next one is, and the meeting of its work that is
 * shared out. */
static __thread struct region *my_region;
static __thread u64 my_team, my_round, my_share;
static __thread struct doacross *my_loop;
static __thread u8 has_stack;
#define FIRST_ROUND 1

static void meet_team(int kind, u64 team, u64 round, u64 pc) {
    if (team) meet(kind, OF_TEAM, team, round, pc);
}

static u32 size_of_team(void) {
    REAL(omp_get_num_threads, int, void);
    return (u32)real();
}

static void become_idle(struct region *r) {
    if (r) __atomic_fetch_add(&r->idle, 1, SC), idle_in = r;
}

static void end_idle(void) {
    if (idle_in) __atomic_fetch_sub(&idle_in->idle, 1, SC);
    idle_in = NULL;
}

/* Without the token: waits until it is brought in line, and for the turn. */
static void come_back(struct region *r) {
    struct comer mine = {me, NULL};
    struct before b = enter_turns();
    lock_turns();
    struct comer **at = &r->comers;
    while (*at && (*at)->thread < me) at = &(*at)->next;
    mine.next = *at, *at = &mine;
    __atomic_store_n(&woken[me], 0, SC);
    __atomic_fetch_add(&r->back, 1, SC);
    unlock_turns();
    wait_in_line();
    end_turns(b);
}

/* With the token: brings all others in line when they are back. */
static void bring_back(struct region *r) {
    while (__atomic_load_n(&r->back, SC) + 1 < r->size) syscall(SYS_sched_yield);
    lock_turns();
    for (struct comer *c = r->comers; c; c = c->next) waiting[waiting_count++] = c->thread;
    r->comers = NULL, r->back = 0;
    unlock_turns();
}

/* A thread of the library has its stack as a variable when it first has a turn. */
static void begin_region(struct region *r) {
    u32 size = size_of_team();
    if (me == NOBODY) stranger();
    if (me >= MOST_THREADS || r->is_planned) {
        take();
    } else if (me == r->master) {
        take();
        r->size = size;
        bring_back(r);
        short_wait = 0;
    } else {
        come_back(r);
    }
    if (!has_stack && me != r->master) own_stack();
    has_stack = 1;
}

/* The last one that ends gives the token to the one that began, which comes back from the library at once. */
static void end_region(struct region *r) {
    if (me >= MOST_THREADS || r->is_planned || r->has_tasks || ++r->in < r->size) {
        become_idle(r);
        give();
        return;
    }
    short_wait = 1;
    lock_turns();
    if (me != r->master && holder == me) hand_to(r->master);
    unlock_turns();
}

static void in_region(void *p) {
    struct region *r = p, *region_before = my_region;
    u64 team_before = my_team, round_before = my_round, share_before = my_share;
    struct doacross *loop_before = my_loop;
    int idle = IDLE;
    making_team = 0, idle_in = NULL, my_loop = NULL;
    my_region = r, my_team = r->team, my_share = FIRST_ROUND + 1, my_round = FIRST_ROUND + 2;
    if (!idle) begin_region(r);
    /* The library lets the team go on when all of its threads are made: after that the master is here. */
    meet_team(me == r->master ? ARRIVED : WENT_ON, my_team, FIRST_ROUND, r->pc);
    r->body(r->data);
    meet_team(ARRIVED, my_team, LAST_ROUND, r->pc);
    my_region = region_before, my_team = team_before, my_round = round_before, my_share = share_before;
    my_loop = loop_before;
    if (!idle) end_region(r);
}

static int is_body_here(struct dl_phdr_info *info, size_t size, void *body) {
    (void)size;
    return part_of(info, *(u64 *)body).size && strstr(info->dlpi_name, "libgomp");
}

/* Whether a thread belongs to libgomp, where it waits without hooks for what to do. Its maker waits for it with the
 * token. So this must not wait for a thread that opens a library, as dladdr does: that one may wait for the token. */
static int is_of_openmp(void *(*body)(void *)) {
    u8 was = inside;
    inside = 1;
    int is = dl_iterate_phdr(is_body_here, &body);
    inside = was;
    return is;
}

static struct region new_region(void (*body)(void *), void *data, u64 pc) {
    int idle = IDLE;
    struct region r = {.body = body, .data = data, .team = __atomic_add_fetch(&teams, 1, SC), .pc = pc};
    if (!idle) maybe_give(), r.master = me, r.is_planned = (u8)following;
    if (r.is_planned) give();
    else if (!idle) short_wait = 1;
    making_team = pc;
    return r;
}

static void leave_region(struct region *r) {
    making_team = 0, idle_in = NULL;
    if (!IDLE) take(), short_wait = 0, meet_team(WENT_ON, r->team, LAST_ROUND, r->pc);
    end_loops(r);
}

#define REGION(name, given, passed_on) \
    void name given { \
        static void(*real) given; \
        if (!real) real = (void(*) given)next(#name, NULL); \
        struct region r = new_region(body, data, PC); \
        real passed_on; \
        leave_region(&r); \
    }
REGION(GOMP_parallel, (void (*body)(void *), void *data, unsigned n, unsigned g), (in_region, &r, n, g))
REGION(GOMP_parallel_sections, (void (*body)(void *), void *data, unsigned n, unsigned k, unsigned g),
       (in_region, &r, n, k, g))

/* A region whose tasks sum up. */
unsigned GOMP_parallel_reductions(void (*body)(void *), void *data, unsigned n, unsigned g) {
    REAL(GOMP_parallel_reductions, unsigned, void (*)(void *), void *, unsigned, unsigned);
    struct region r = new_region(body, data, PC);
    r.sums = *(void **)data;
    unsigned size = real(in_region, &r, n, g);
    leave_region(&r);
    return size;
}

#define LOOP(kind) \
    REGION(GOMP_parallel_loop_##kind, \
           (void (*body)(void *), void *data, unsigned n, long from, long to, long by, long chunk, unsigned g), \
           (in_region, &r, n, from, to, by, chunk, g))
#define LOOP_BY_ITSELF(kind) \
    REGION(GOMP_parallel_loop_##kind, \
           (void (*body)(void *), void *data, unsigned n, long from, long to, long by, unsigned g), \
           (in_region, &r, n, from, to, by, g))
LOOP(static)
LOOP(dynamic)
LOOP(guided)
LOOP(nonmonotonic_dynamic)
LOOP(nonmonotonic_guided)
LOOP_BY_ITSELF(runtime)
LOOP_BY_ITSELF(nonmonotonic_runtime)
LOOP_BY_ITSELF(maybe_nonmonotonic_runtime)

/* A team that the library alone lets go on, in any order. */
static int is_any_order(struct region *r) { return !r || me >= MOST_THREADS || r->is_planned; }

/* The last one that comes keeps the token, as the library lets it through; then one of all goes on. */
static int comes_to_barrier(u64 pc) {
    struct region *r = my_region;
    maybe_give();
    meet_team(ARRIVED, my_team, my_round, pc);
    int is_last = !is_any_order(r) && ++r->in >= r->size;
    if (is_last) r->in = 0;
    is_last = is_last && !r->has_tasks;
    if (!is_last) become_idle(r), give();
    return is_last;
}

static void leaves_barrier(int was_last, u64 pc) {
    struct region *r = my_region;
    end_idle();
    if (was_last) bring_back(r), give_and_take();
    else if (is_any_order(r) || r->has_tasks) take();
    else come_back(r);
    meet_team(WENT_ON, my_team, my_round++, pc);
}

#define BARRIER(name) \
    void name(void) { \
        REAL(name, void, void); \
        int idle = IDLE, was_last = idle ? 0 : comes_to_barrier(PC); \
        real(); \
        if (!idle) leaves_barrier(was_last, PC); \
    }
/* The same in a region that may be cancelled: then not all of its threads come. */
#define CANCELLED_BARRIER(name) \
    _Bool name(void) { \
        REAL(name, _Bool, void); \
        int idle = IDLE; \
        if (!idle && may_be_cancelled() && my_region) my_region->has_tasks = 1; \
        int was_last = idle ? 0 : comes_to_barrier(PC); \
        _Bool is_cancelled = real(); \
        if (!idle) leaves_barrier(was_last, PC); \
        return is_cancelled; \
    }
static int may_be_cancelled(void) {
    REAL(omp_get_cancellation, int, void);
    return real();
}
CANCELLED_BARRIER(GOMP_barrier_cancel)
CANCELLED_BARRIER(GOMP_loop_end_cancel)
CANCELLED_BARRIER(GOMP_sections_end_cancel)
BARRIER(GOMP_barrier)
BARRIER(GOMP_loop_end)
BARRIER(GOMP_sections_end)

/* The end of shared work whose tasks sum up: as its barrier, if it was not cancelled. */
void GOMP_workshare_task_reduction_unregister(_Bool is_cancelled) {
    REAL(GOMP_workshare_task_reduction_unregister, void, _Bool);
    int idle = IDLE || is_cancelled, was_last = idle ? 0 : comes_to_barrier(PC);
    real(is_cancelled);
    if (!idle) leaves_barrier(was_last, PC);
}

/* ---- work that is shared out: who comes first has the next part, as by an atomic counter ---- */

static void take_share(u64 pc) {
    maybe_give();
    meet_team(ARRIVED, my_team, my_share, pc);
}

/* clang-format off */
#define LOOP_SHARES(kind) \
    SHARES(_Bool, GOMP_loop_##kind##_start, 1, (long a, long b, long by, long n, long *from, long *to), \
           (a, b, by, n, from, to)) \
    SHARES(_Bool, GOMP_loop_##kind##_next, 0, (long *from, long *to), (from, to)) \
    SHARES(_Bool, GOMP_loop_ull_##kind##_start, 1, (_Bool up, ull a, ull b, ull by, ull n, ull *from, ull *to), \
           (up, a, b, by, n, from, to)) \
    SHARES(_Bool, GOMP_loop_ull_##kind##_next, 0, (ull *from, ull *to), (from, to))
#define RUNTIME_SHARES(kind) \
    SHARES(_Bool, GOMP_loop_##kind##_start, 1, (long a, long b, long by, long *from, long *to), (a, b, by, from, to)) \
    SHARES(_Bool, GOMP_loop_##kind##_next, 0, (long *from, long *to), (from, to)) \
    SHARES(_Bool, GOMP_loop_ull_##kind##_start, 1, (_Bool up, ull a, ull b, ull by, ull *from, ull *to), \
           (up, a, b, by, from, to)) \
    SHARES(_Bool, GOMP_loop_ull_##kind##_next, 0, (ull *from, ull *to), (from, to))
/* clang-format on */
LOOP_SHARES(dynamic)
LOOP_SHARES(guided)
LOOP_SHARES(nonmonotonic_dynamic)
LOOP_SHARES(nonmonotonic_guided)
RUNTIME_SHARES(runtime)
RUNTIME_SHARES(nonmonotonic_runtime)
RUNTIME_SHARES(maybe_nonmonotonic_runtime)
SHARES(_Bool, GOMP_loop_start, 1,
       (long a, long b, long by, long how, long n, long *from, long *to, u64 *sums, void **kept),
       (a, b, by, how, n, from, to, sums, kept))
SHARES(_Bool, GOMP_loop_ull_start, 1,
       (_Bool up, ull a, ull b, ull by, long how, ull n, ull *from, ull *to, u64 *sums, void **kept),
       (up, a, b, by, how, n, from, to, sums, kept))
SHARES(unsigned, GOMP_sections_start, 1, (unsigned n), (n))
SHARES(unsigned, GOMP_sections2_start, 1, (unsigned n, u64 *sums, void **kept), (n, sums, kept))
SHARES(unsigned, GOMP_sections_next, 0, (void), ())

/* What one thread does: the others come after it has begun. */
_Bool GOMP_single_start(void) {
    REAL(GOMP_single_start, _Bool, void);
    if (IDLE) return real();
    maybe_give();
    _Bool mine = real();
    meet_team(mine ? ARRIVED : WENT_ON, my_team, my_round++, PC);
    return mine;
}

/* ---- locks: who waits for one of the library waits in the recorder ---- */

static void hold(void *at, u64 pc) {
    struct meeting *m = meeting_of(at);
    while (m->who != NOBODY && m->who != me) park_for_lock(TO_WRITE, at, NULL, 0, pc);
    m->who = me, m->inside++;
}

static void let_go(void *at) {
    struct meeting *m = meeting_of(at);
    if (m->inside && --m->inside) return;
    m->who = NOBODY;
    unpark(at);
}

/* Their names in a trace. */
static char one_for_all __asm__("omp.critical"), one_for_atomics __asm__("omp.atomic");
#define BEGINS(name, at, given, passed_on) \
    void name given { \
        static void(*real) given; \
        if (!real) real = (void(*) given)next(#name, NULL); \
        u64 pc = LOCK_PC; \
        if (!IDLE) maybe_give(), hold(at, pc); \
        real passed_on; \
        if (!IDLE) put_lock(ACQUIRE, (u64)(at), 0, pc); \
    }
#define ENDS(name, at, given, passed_on) \
    void name given { \
        static void(*real) given; \
        if (!real) real = (void(*) given)next(#name, NULL); \
        if (!IDLE) maybe_give(), put_lock(RELEASE, (u64)(at), 0, LOCK_PC); \
        real passed_on; \
        if (!IDLE) let_go(at); \
    }
BEGINS(GOMP_critical_start, &one_for_all, (void), ())
ENDS(GOMP_critical_end, &one_for_all, (void), ())
BEGINS(GOMP_critical_name_start, name, (void **name), (name))
ENDS(GOMP_critical_name_end, name, (void **name), (name))
BEGINS(GOMP_atomic_start, &one_for_atomics, (void), ())
ENDS(GOMP_atomic_end, &one_for_atomics, (void), ())
BEGINS(omp_set_lock, lock, (void *lock), (lock))
ENDS(omp_unset_lock, lock, (void *lock), (lock))
BEGINS(omp_set_nest_lock, lock, (void *lock), (lock))
ENDS(omp_unset_nest_lock, lock, (void *lock), (lock))

#define TESTS(name) \
    int name(void *lock) { \
        REAL(name, int, void *); \
        u64 pc = LOCK_PC; \
        if (!IDLE) maybe_give(); \
        int got_it = real(lock); \
        if (got_it && !IDLE) hold(lock, pc); \
        took_by(BY_TRY, got_it ? 0 : EBUSY, lock, pc); \
        return got_it; \
    }
TESTS(omp_test_lock)
TESTS(omp_test_nest_lock)
