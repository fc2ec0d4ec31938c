/* A run that hangs in a deadlock: each thread is parked, and some wait in a circle, each for a lock that the next one
 * holds. The recorder ends the run then. Who holds a lock follows from the records. Interposes nothing. The watcher
 * calls look_for_deadlock with the turns' lock held, so this must not wait, allocate or take that lock. */
#define OF_DEADLOCKS
#include "deadlocks.h"
#include "events.h"
#include "follow.h"
#include "requests.h"
#include "turns.h"
#include "words.h"

/* The record of a request by each thread that is parked for a lock; its kind is VOID for other threads. Its `size` is 1
 * if the thread wants to read. */
static struct record wanted[MOST_THREADS];

/* With more parked threads nobody looks for a circle. */
#define MOST_STUCK 1024
/* Parked threads, each of which waits for a lock that another such thread holds. */
static u8 is_stuck[MOST_THREADS];

/* A lock that a thread holds, and how often. */
struct hold {
    u64 at;
    u32 thread, times;
    u8 reads;
};
#define MOST_HOLDS 4096
static struct hold holds[MOST_HOLDS];
static u32 hold_count;

/* Bits of the addresses of locks that parked threads wait for. */
static u8 wanted_bits[65536];
static u64 bit_of(u64 at) { return at * 0x9e3779b97f4a7c15ull >> 48; }

/* Waits for a lock, as `park`. */
static int park_for_lock(int reads, const volatile void *at, const struct timespec *until, clockid_t clock, u64 pc) {
    if (me >= MOST_THREADS) return park(at, until, clock);
    wanted[me] = (struct record){.kind = REQUEST, .at = (u64)at, .pc = pc, .size = (u32)reads, .thread = (u16)me};
    wanted[me].stack = stack_now(), wanted[me].pos = CLOCK(tick + 1, 0), wanted[me].done = 1;
    if (following) wait_in_plan(&wanted[me]);
    int late = park(at, until, clock);
    wanted[me].kind = VOID;
    return late;
}

static struct hold *hold_of(u64 at, u32 thread) {
    for (u32 k = 0; k < hold_count; k++)
        if (holds[k].at == at && holds[k].thread == thread) return &holds[k];
    return NULL;
}

static void note_taken(const struct record *r) {
    struct hold *h = hold_of(r->at, r->thread);
    if (!h && hold_count == MOST_HOLDS) return;
    if (!h) {
        h = &holds[hold_count++];
        *h = (struct hold){r->at, r->thread, 0, r->kind == READER_IN};
    }
    h->times++;
}

/* A lock that another thread lets go is nobody's. */
static void note_let_go(const struct record *r) {
    struct hold *h = hold_of(r->at, r->thread);
    for (u32 k = 0; !h && k < hold_count; k++)
        if (holds[k].at == r->at && !holds[k].reads) h = &holds[k], h->times = 1;
    if (h && !--h->times) *h = holds[--hold_count];
}

/* Goes over all records: who holds the locks that these threads wait for. */
static void find_holds(const u32 *threads, u32 count) {
    hold_count = 0;
    memset(wanted_bits, 0, sizeof wanted_bits);
    for (u32 k = 0; k < count; k++)
        if (wanted[threads[k]].kind) wanted_bits[bit_of(wanted[threads[k]].at)] = 1;
    static struct reader all;
    memset(&all, 0, sizeof all);
    all.words = words, all.end = head->used;
    for (const struct record *r; (r = read_record(&all));) {
        if (r->of || !wanted_bits[bit_of(r->at)]) continue;
        if (r->kind == ACQUIRE || r->kind == WRITER || r->kind == READER_IN) note_taken(r);
        else if (r->kind == RELEASE || r->kind == READER_OUT) note_let_go(r);
    }
}

/* The first stuck thread that holds what this one waits for, or NOBODY. A reader waits for no reader. */
static u32 next_of(u32 thread) {
    struct record *w = &wanted[thread];
    for (u32 k = 0; k < hold_count; k++)
        if (holds[k].at == w->at && is_stuck[holds[k].thread] && !(w->size && holds[k].reads)) return holds[k].thread;
    return NOBODY;
}

/* For each thread that waits for a lock, a waiting thread that holds the lock, or NOBODY. The turns' lock is held. */
static void find_holders(const u32 *threads, u32 count, u64 *holders) {
    find_holds(threads, count);
    for (u32 k = 0; k < count; k++) is_stuck[threads[k]] = 1;
    for (u32 k = 0; k < count; k++) holders[k] = next_of(threads[k]);
    for (u32 k = 0; k < count; k++) is_stuck[threads[k]] = 0;
}

/* The least stuck thread, after those are left out that wait for none of the others; NOBODY if all are. */
static u32 first_stuck(void) {
    u32 least = NOBODY;
    for (u32 k = 0; k < parked_count; k++) is_stuck[parked[k]] = wanted[parked[k]].kind != VOID;
    for (int again = 1; again;) {
        again = 0, least = NOBODY;
        for (u32 k = 0; k < parked_count; k++) {
            u32 thread = parked[k];
            if (!is_stuck[thread]) continue;
            if (next_of(thread) == NOBODY) is_stuck[thread] = 0, again = 1;
            else if (thread < least) least = thread;
        }
    }
    for (u32 k = 0; k < parked_count && least == NOBODY; k++) is_stuck[parked[k]] = 0;
    return least;
}

/* Ends the program as abort() does, so a debugger stops there. */
static void end_by_abort(void) {
    u64 usual[4] = {0}, mask = 1ull << (SIGABRT - 1);
    syscall(SYS_rt_sigaction, SIGABRT, usual, NULL, sizeof mask);
    syscall(SYS_rt_sigprocmask, SIG_UNBLOCK, &mask, NULL, sizeof mask);
    syscall(SYS_tgkill, getpid(), syscall(SYS_gettid), SIGABRT);
    syscall(SYS_exit_group, 128 + SIGABRT);
}

/* Writes the requests of a circle, from its least thread on, and ends the program. */
static void end_in_deadlock(u32 thread) {
    for (u32 k = 0; k < parked_count; k++) thread = next_of(thread);
    u32 first = thread;
    for (u32 t = next_of(thread); t != thread; t = next_of(t))
        if (t < first) first = t;
    u32 t = first;
    do {
        if (put_long(&wanted[t], 0) != NO_PLACE) head->deadlock++;
        t = next_of(t);
    } while (t != first);
    end_by_abort();
}

/* Whether each thread is parked, and none looks again by itself: after a time, or at a descriptor. */
static int all_wait_for_ever(void) {
    if (parked_count != living || parked_count > MOST_STUCK || is_full) return 0;
    for (u32 k = 0; k < parked_count; k++)
        if (wakes_itself[parked[k]]) return 0;
    return 1;
}

/* Ends the program if it hangs in a deadlock. The looker calls this when all threads are parked for a while; each has
 * looked again if there is no new record since the last call. Going over all records may take long: they are gone over
 * once. The turns' lock is held. */
static void look_for_deadlock(void) {
    static u64 used_before, searched;
    int is_still = head->used == used_before;
    used_before = head->used;
    if (!is_still || searched == head->used || !all_wait_for_ever()) return;
    searched = head->used;
    find_holds(parked, parked_count);
    u32 thread = first_stuck();
    if (thread != NOBODY) end_in_deadlock(thread);
}
