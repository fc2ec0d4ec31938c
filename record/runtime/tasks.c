/* Tasks of OpenMP (libgomp). A task comes after its maker made it. Its end comes before its maker's next taskwait is
 * over, before the end of its task group, and before the end of the next barrier of its team. Interposes GOMP_task,
 * GOMP_taskloop, GOMP_taskwait, GOMP_taskgroup_*, GOMP_single_copy_* and omp_fulfill_event. Must not enter the library
 * with the token, as in openmp.c. */
#include "accesses.h"
#include "atomics.h"
#include "callers.h"
#include "deadlocks.h"
#include "events.h"
#include "follow.h"
#include "heap.h"
#include "meetings.h"
#include "openmp.h"
#include "threads.h"
#include "turns.h"

#define DEPENDS 8
#define UPWARDS 256
#define BY_GRAIN 512
#define DEFERRED 1024
#define WITHOUT_GROUP 2048
#define DETACHED 8192
#define READS_ALONE 1
#define STRICTLY 16384

/* A variable that a task depends on, and whether it depends on the tasks alone that write it. */
struct dependence {
    void *at;
    u8 reads;
};

/* What a task carries before its own data; libgomp copies it by copy_task(). In a task of a loop libgomp writes the
 * part of the loop over the first two words; the third says what the loop sums up. */
struct task {
    u64 part[2];
    void *sums;
    void (*body)(void *);
    void (*copy)(void *, void *);
    void *data;
    u64 size, offset, number, waits, wait_round, team, round, group, pc;
    /* The team of its maker, which counts it as ready. */
    struct region *region;
    u32 depends;
    u8 has_part, is_counted, is_detached;
    struct dependence *depend;
};
struct group {
    u64 number;
    struct group *outer;
};
/* What this thread's task waits for at taskwait, the how many-th time, and its task group. */
static __thread u64 my_waits, my_wait_round, my_group;
static __thread struct group *my_groups;

/* The first tasks are left to other threads of the team for a moment: else their maker may do all. */
#define LEFT_TO_OTHERS 1000
/* A thread that has a task waits this long for idle threads to begin the ready ones, and this often in vain: one thread
 * that does all would hide what races. Threads that are not idle may get this many turns first. */
#define MOMENTS 1000
#define TURNS_OF_OTHERS 8
#define MOST_IN_VAIN 20

static u64 new_number(void) { return __atomic_add_fetch(&teams, 1, SC); }

/* A task that ends when its event is fulfilled too. */
static struct pending {
    u64 event;
    struct task task;
    struct pending *next;
} * pendings;

/* The library wrote the event where the task's own data begins. */
static void note_event(struct task *t) {
    struct pending *p = __libc_malloc(sizeof *p);
    u64 size = t->depends * sizeof *t->depend;
    if (!p) abort();
    *p = (struct pending){.event = t->part[0], .task = *t};
    p->task.depend = __libc_malloc(size ? size : 1);
    if (!p->task.depend) abort();
    if (size) __real_memcpy(p->task.depend, t->depend, size);
    __real_memcpy(t->data, &p->event, sizeof p->event);
    lock_turns();
    p->next = pendings, pendings = p;
    unlock_turns();
}

/* A constructor of the program's may be called by the copy, and has hooks. */
static void copy_task(void *to, void *from) {
    struct task *t = from;
    u8 was = inside;
    if (t->is_detached) note_event(t);
    inside = 1;
    __real_memcpy(to, t, sizeof *t);
    inside = was;
    int had = IDLE || holder == me || !t->copy;
    if (!had) take();
    if (t->copy) t->copy((char *)to + t->offset, t->data);
    else __real_memcpy((char *)to + t->offset, t->data, t->size);
    if (!had) give();
}

/* Tasks that write a variable end at one meeting, and those that read it at another: who writes begins after both, and
 * who reads after the first. */
enum { WRITTEN, ALL_READ };
static void meet_depends(struct task *t, int kind, u64 pc) {
    for (u32 k = 0; k < t->depends; k++) {
        struct dependence *d = &t->depend[k];
        if (kind == WENT_ON || !d->reads) meet(kind, OF_MEMORY, (u64)d->at, WRITTEN, pc);
        if (kind == WENT_ON ? !d->reads : d->reads) meet(kind, OF_MEMORY, (u64)d->at, ALL_READ, pc);
    }
}

static void end_task(struct task *t, u64 pc) {
    meet_depends(t, ARRIVED, pc);
    meet(ARRIVED, OF_TEAM, t->waits, t->wait_round, pc);
    if (t->group) meet(ARRIVED, OF_TEAM, t->group, 1, pc);
    meet_team(ARRIVED, t->team, t->round, pc);
    meet_team(ARRIVED, t->team, LAST_ROUND, pc);
}

static struct pending *pending_of(u64 event) {
    lock_turns();
    struct pending **at = &pendings, *p;
    while (*at && (*at)->event != event) at = &(*at)->next;
    if ((p = *at)) *at = p->next;
    unlock_turns();
    return p;
}

void omp_fulfill_event(u64 event) {
    REAL(omp_fulfill_event, void, u64);
    struct pending *p = pendings ? pending_of(event) : NULL;
    if (p && !IDLE) maybe_give(), end_task(&p->task, PC);
    if (p) __libc_free(p->task.depend), __libc_free(p);
    real(event);
}

static void leave_ready_tasks(struct region *r) {
    static u32 in_vain;
    if (!r || following || in_vain >= MOST_IN_VAIN) return;
    for (u32 k = 0; r->ready && (r->idle || (k < TURNS_OF_OTHERS && waiting_count)); k++) {
        if (k == MOMENTS) {
            in_vain++;
            return;
        }
        let_others();
    }
}

static void in_task(void *p) {
    struct task *t = p;
    u64 waits = my_waits, wait_round = my_wait_round, group = my_group;
    u64 team = my_team, round = my_round, share = my_share;
    struct group *groups = my_groups;
    struct region *region = my_region, *was_idle_in = idle_in;
    int had = IDLE || holder == me;
    end_idle();
    if (t->is_counted) __atomic_fetch_sub(&t->region->ready, 1, SC);
    if (!had) take(), leave_ready_tasks(t->region);
    my_region = t->region;
    my_waits = 0, my_wait_round = 1, my_group = t->group, my_groups = NULL, my_team = t->team, my_round = t->round;
    meet(WENT_ON, OF_TEAM, t->number, 1, t->pc);
    meet_depends(t, WENT_ON, t->pc);
    if (t->has_part) __real_memcpy((char *)p + t->offset, t->part, sizeof t->part);
    t->body((char *)p + t->offset);
    end_task(t, t->pc);
    __libc_free(t->depend);
    my_waits = waits, my_wait_round = wait_round, my_group = group, my_groups = groups;
    my_team = team, my_round = round, my_share = share, my_region = region;
    become_idle(was_idle_in);
    if (!had) give();
}

/* A task's depend clauses, in the two forms that the library has: those that write, the others, and in the second form
 * places at which an address is with its kind. */
static void read_depends(struct task *t, void **depend) {
    u64 first = (u64)depend[0], count = first ? first : (u64)depend[1], from = first ? 2 : 5;
    u64 writes = (u64)depend[first ? 1 : 2] + (first ? 0 : (u64)depend[3]);
    u64 plain = first ? count : writes + (u64)depend[4];
    t->depend = __libc_malloc(count * sizeof *t->depend + 1);
    if (!t->depend) abort();
    for (u64 k = 0; k < count; k++) {
        void **at = &depend[from + k], **object = *at;
        t->depend[t->depends++] = k < plain ? (struct dependence){*at, k >= writes}
                                            : (struct dependence){object[0], object[1] == (void *)READS_ALONE};
    }
}

#define WIDE_OF(align) ((align) < 16 ? 16 : (u64)(align))

/* What a task of this thread carries, whose number its maker has still to pass. */
static struct task new_task(void (*body)(void *), void *data, void (*copy)(void *, void *), long size, long align,
                            u64 pc) {
    u64 wide = WIDE_OF(align);
    maybe_give();
    if (my_region) my_region->has_tasks = 1;
    if (!my_waits) my_waits = new_number(), my_wait_round = 1;
    return (struct task){.body = body,
                         .copy = copy,
                         .data = data,
                         .size = (u64)size,
                         .pc = pc,
                         .number = new_number(),
                         .offset = (sizeof(struct task) + wide - 1) / wide * wide,
                         .waits = my_waits,
                         .wait_round = my_wait_round,
                         .team = my_team,
                         .round = my_round,
                         .region = my_region,
                         .group = my_group};
}

/* `count` tasks of this thread wait for a thread of the team. */
static void make_ready(struct task *t, u64 count) {
    t->is_counted = t->region != NULL;
    if (t->region) __atomic_fetch_add(&t->region->ready, (u32)count, SC);
}

/* How many tasks libgomp makes of a loop that goes so far, by such steps. */
static u64 tasks_of_loop(int is_empty, u64 way, u64 by, unsigned flags, u64 wanted) {
    u64 rounds = is_empty ? 0 : (way + by - 1) / by;
    if (!wanted) wanted = size_of_team();
    if (!(flags & BY_GRAIN) || !rounds) return rounds < wanted ? rounds : wanted;
    u64 whole = rounds / wanted + ((flags & STRICTLY) && rounds % wanted);
    return whole ? whole : 1;
}

void GOMP_task(void (*body)(void *), void *data, void (*copy)(void *, void *), long size, long align, _Bool deferred,
               unsigned flags, void **depend, int priority, void *detach) {
    REAL(GOMP_task, void, void (*)(void *), void *, void (*)(void *, void *), long, long, _Bool, unsigned, void **, int,
         void *);
    if (IDLE || align > 64) {
        real(body, data, copy, size, align, deferred, flags, depend, priority, detach);
        return;
    }
    struct task t = new_task(body, data, copy, size, align, PC);
    u64 wide = WIDE_OF(align);
    if (flags & DEPENDS) read_depends(&t, depend);
    else if (deferred) make_ready(&t, 1);
    t.is_detached = (flags & DETACHED) != 0;
    meet(ARRIVED, OF_TEAM, t.number, 1, PC);
    int waits = t.is_detached || ((flags & DEPENDS) && !deferred);
    if (waits) give();
    real(in_task, &t, copy_task, (long)t.offset + size, (long)wide, deferred, flags, depend, priority, detach);
    take();
    if (deferred && t.number < LEFT_TO_OTHERS) let_others();
}

/* Tasks that share out a loop: all are made by one call, which waits for them as for a separate group, unless the
 * program says `nogroup`. */
#define TASKLOOP(name, T) \
    void name(void (*body)(void *), void *data, void (*copy)(void *, void *), long size, long align, unsigned flags, \
              unsigned long tasks, int priority, T from, T to, T by) { \
        REAL(name, void, void (*)(void *), void *, void (*)(void *, void *), long, long, unsigned, unsigned long, int, \
             T, T, T); \
        if (IDLE || align > 64) { \
            real(body, data, copy, size, align, flags, tasks, priority, from, to, by); \
            return; \
        } \
        struct task t = new_task(body, data, copy, size, align, PC); \
        int has_group = !(flags & WITHOUT_GROUP); \
        if (has_group) t.group = new_number(); \
        t.has_part = 1, t.sums = size > 16 ? ((void **)data)[2] : NULL; \
        int up = (flags & UPWARDS) != 0; \
        u64 way = up ? (u64)to - (u64)from : (u64)from - (u64)to, step = up ? (u64)by : -(u64)by; \
        if (flags & DEFERRED) make_ready(&t, tasks_of_loop(up ? from >= to : from <= to, way, step, flags, tasks)); \
        meet(ARRIVED, OF_TEAM, t.number, 1, PC); \
        give(); \
        real(in_task, &t, copy_task, (long)t.offset + size, (long)WIDE_OF(align), flags, tasks, priority, from, to, \
             by); \
        take(); \
        if (has_group) meet(WENT_ON, OF_TEAM, t.group, 1, PC); \
    }
TASKLOOP(GOMP_taskloop, long)
TASKLOOP(GOMP_taskloop_ull, ull)

void GOMP_taskwait(void) {
    REAL(GOMP_taskwait, void, void);
    if (!IDLE) maybe_give(), give();
    real();
    if (IDLE) return;
    take();
    if (my_waits) meet(WENT_ON, OF_TEAM, my_waits, my_wait_round++, PC);
}

/* Waits for the tasks that its variables hang on. */
void GOMP_taskwait_depend(void **depend) {
    REAL(GOMP_taskwait_depend, void, void **);
    struct task waited = {.pc = PC};
    if (!IDLE) maybe_give(), give();
    real(depend);
    if (IDLE) return;
    take();
    read_depends(&waited, depend);
    meet_depends(&waited, WENT_ON, PC);
    __libc_free(waited.depend);
}

void GOMP_taskgroup_start(void) {
    REAL(GOMP_taskgroup_start, void, void);
    struct group *g = __libc_malloc(sizeof *g);
    if (!g) abort();
    *g = (struct group){my_group, my_groups};
    my_groups = g, my_group = new_number();
    real();
}

void GOMP_taskgroup_end(void) {
    REAL(GOMP_taskgroup_end, void, void);
    struct group *g = my_groups;
    u64 number = my_group;
    if (!IDLE) maybe_give(), give();
    real();
    if (!IDLE) take(), meet(WENT_ON, OF_TEAM, number, 1, PC);
    if (!g) return;
    my_group = g->number, my_groups = g->outer;
    __libc_free(g);
}

/* What one thread makes and gives to all: the others come after it has begun, wait for it as at a barrier, and it comes
 * there when it is made. */
void *GOMP_single_copy_start(void) {
    REAL(GOMP_single_copy_start, void *, void);
    if (IDLE) return real();
    maybe_give();
    struct region *r = my_region;
    u64 round = my_round++;
    int makes = r && r->made < round;
    if (makes) r->made = round;
    meet_team(makes ? ARRIVED : WENT_ON, my_team, round, PC);
    if (makes) return real();
    int was_last = comes_to_barrier(PC);
    void *made = real();
    leaves_barrier(was_last, PC);
    return made;
}

void GOMP_single_copy_end(void *made) {
    REAL(GOMP_single_copy_end, void, void *);
    int idle = IDLE, was_last = idle ? 0 : comes_to_barrier(PC);
    real(made);
    if (!idle) leaves_barrier(was_last, PC);
}
