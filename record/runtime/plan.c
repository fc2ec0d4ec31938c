/* A plan: the order in which a schedule brings the threads. record/follow makes it, of a witness and of the clock of
 * the recording. The clock of a thread is the number of hooks that it came to (tick), and in between the number of
 * blocks that it gave back (sub). No name and no address is compared, only places of code. Interposes nothing. It runs
 * at hooks, so it must not call functions of the C library that the recorder takes, such as strcmp. */
#define OF_PLAN
#include "plan.h"
#include "follow.h"

struct fork_of {
    u64 parent, pos, child;
};

#define PLAN_MAGIC 0x3357464252524352ull

static struct plan *plan;
static struct known *known;
static struct fork_of *forks;
static struct step *steps;
static u64 *needs, *next_step;
static struct tick_entry *ticks;
static struct module *recorded_modules;
/* Whether a module lies elsewhere than in the recording. */
static u8 is_shifted;
static volatile u64 at_step;
static volatile u64 ticks_of[MOST_THREADS];

/* By no function of the C library, which the recorder takes. */
static int are_same(const char *a, const char *b) {
    while (*a && *a == *b) a++, b++;
    return *a == *b;
}

/* A place of code as the recording has it. */
static u64 as_recorded(u64 pc) {
    if (!is_shifted) return pc;
    for (u64 k = 0; k < head->modules; k++) {
        struct module *m = &head->module[k];
        if (pc < m->base || pc >= m->end) continue;
        for (u64 i = 0; i < plan->modules; i++)
            if (are_same(recorded_modules[i].path, m->path)) return pc - m->base + recorded_modules[i].base;
    }
    return pc;
}

static void look_for_shift(void) {
    for (u64 k = 0; plan && k < head->modules; k++)
        for (u64 i = 0; i < plan->modules; i++) {
            struct module *m = &head->module[k], *o = &recorded_modules[i];
            if (are_same(o->path, m->path) && o->base != m->base) is_shifted = 1;
        }
}

static void map_plan(void *p) {
    plan = p;
    known = (struct known *)((char *)p + plan->threads_at);
    forks = (struct fork_of *)((char *)p + plan->forks_at);
    steps = (struct step *)((char *)p + plan->steps_at);
    needs = (u64 *)((char *)p + plan->needs_at);
    next_step = (u64 *)((char *)p + plan->first_at);
    ticks = (struct tick_entry *)((char *)p + plan->ticks_at);
    recorded_modules = (struct module *)((char *)p + plan->modules_at);
    plan->state = FOLLOWING;
    following = plan->steps > 0;
    look_for_shift();
}

static void start_following(const char *name) {
    int file = name && *name ? (int)syscall(SYS_openat, AT_FDCWD, name, O_RDWR | O_CLOEXEC) : -1;
    struct stat about;
    if (file < 0) return;
    if (!fstat(file, &about) && (u64)about.st_size >= sizeof *plan) {
        void *p = mmap(NULL, (size_t)about.st_size, PROT_READ | PROT_WRITE, MAP_SHARED, file, 0);
        if (p != MAP_FAILED && ((struct plan *)p)->magic == PLAN_MAGIC) map_plan(p);
    }
    syscall(SYS_close, file);
}

static struct tick_entry *entry_at(u64 t) {
    return plan && me < plan->threads && t && t <= known[me].count ? &ticks[known[me].first + t - 1] : NULL;
}

static u64 expected_at(u64 t) {
    struct tick_entry *e = entry_at(t);
    return e ? e->code : 0;
}

/* The number that the recording gave to the child that is made now. */
static u32 planned_child(void) {
    for (u64 k = 0; plan && k < plan->forks; k++)
        if (forks[k].parent == me && forks[k].pos == CLOCK(tick + 1, 0)) return (u32)forks[k].child;
    return NOBODY;
}

/* The run is not that of the plan: it ends here. */
static void depart(u64 why, u64 pos, u64 kind, u64 pc, u64 expected) {
    plan->why = why, plan->thread = me, plan->pos = pos, plan->kind = kind, plan->pc = as_recorded(pc),
    plan->expected = expected;
    for (int k = 0; k < MOST_TOLD; k++) plan->at_tick[k] = ticks_of[k];
    plan->step = at_step;
    __atomic_store_n(&plan->state, DEPARTED, __ATOMIC_SEQ_CST);
    syscall(SYS_exit_group, 125);
}
