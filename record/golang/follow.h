// Following a plan: a goroutine waits before each record until the plan's next step is its own. record/plans.py writes
// the plan; ../runtime/plan.c has the same structures. A goroutine's clock is the number of its records.
#include <sys/syscall.h>
#include <sys/uio.h>
#include <time.h>

enum { STEP, STAND, LAST, WAIT }; // types of steps
enum { NOT_FOLLOWING, FOLLOWING, STANDS, DEPARTED, DONE };
enum { OTHER_CODE = 1, MISSED, WOULD_WAIT, HANGS, ENDED, OTHER_OUTCOME, NO_WAIT = 9, NOT_HELD };

struct step {
    u32 thread, type;
    u64 pos, event, next, needs, needs_count, done, unused;
};
struct known {
    u64 first, count;
};
struct fork_of {
    u64 parent, pos, child;
};
struct tick_entry {
    u64 code, at, answer;
};
#define MOST_FRAMES 64
#define MOST_TOLD 64
#define MOST_REQUESTS 8
#define USES_SIZE (16 * 48)
struct standing {
    u64 thread, pos, at, size, kind, pc, kernel_id, value[2], value_there, after[2], after_there, frames;
    u64 frame[2 * MOST_FRAMES];
};
struct plan {
    u64 magic, threads, steps, forks, ticks, frees, held_back, alone, patience_ms;
    u64 threads_at, forks_at, steps_at, ticks_at, needs_at, first_at, modules_at, modules;
    u64 state, step, why, thread, pos, kind, pc, expected, spurious, passed_ticks, last_pc, early, refused_tries, uses;
    struct standing standing[2];
    u64 at_tick[MOST_TOLD];
    u8 use[USES_SIZE];
    u64 requests, hangs;
    struct standing request[MOST_REQUESTS];
    u64 holder[MOST_REQUESTS];
};
#define PLAN_MAGIC 0x3357464252524352ull
#define CLOCK(ticks) ((u64)(ticks) << 16)
#define IS_EVENT(code) ((code) >> 7 & 1)
#define NOBODY ~0u
// A look at goroutines that wait, while nothing else can run.
#define LOOK_NS 50000
// The most choices without a record that may pass over the goroutine that is held back.
#define MOST_IDLE 400

// The kinds of ../runtime/format.h, which the texts of record/follow are made of.
enum { F_READ = 1, F_WRITE, F_ACQUIRE, F_RELEASE, F_FORK, F_LOAD = 10, F_STORE, F_UPDATE, F_PASS, F_WRITER };
enum { F_TRIED = 17, F_READER_IN, F_READER_OUT, F_MEETING = 21 };
static const u8 kinds[64] = {
    [READ] = F_READ,
    [WRITE] = F_WRITE,
    [FORK] = F_FORK,
    [LOAD] = F_LOAD,
    [FAILED_MODIFY] = F_LOAD,
    [STORE] = F_STORE,
    [MODIFY] = F_UPDATE,
    [EVENTS + 0] = F_ACQUIRE,
    [EVENTS + 1] = F_RELEASE,
    [EVENTS + 2] = F_TRIED,
    [EVENTS + 3] = F_READER_IN,
    [EVENTS + 4] = F_READER_OUT,
    [EVENTS + 5] = F_TRIED,
    [EVENTS + 6] = F_WRITER,
    [EVENTS + 7] = F_RELEASE,
    [EVENTS + 8] = F_TRIED,
    [EVENTS + WANTED] = F_ACQUIRE,
    [EVENTS + WANTED + 1] = F_READER_IN,
    [EVENTS + LAST_WANTED] = F_WRITER,
    [EVENTS + BY_TRY] = F_ACQUIRE,
    [EVENTS + BY_TRY + 1] = F_READER_IN,
    [EVENTS + BY_TRY + 2] = F_WRITER,
    [EVENTS + MEETS] = F_MEETING,
    [EVENTS + 18] = F_TRIED,
};

static struct plan *plan;
static struct step *steps;
static struct known *known;
static struct fork_of *forks;
static struct tick_entry *ticks;
static u64 *needs, *next_step, *held, at_step, shift, last_change, records, seen_records;
static struct context **numbered;
static u32 held_count, round_of, stood, held_back = NOBODY, idle_choices;
static int following, is_idle;

static u64 now_ms(void) {
    struct timespec t;
    clock_gettime(CLOCK_MONOTONIC, &t);
    return (u64)t.tv_sec * 1000 + (u64)t.tv_nsec / 1000000;
}

static u64 in_recording(u64 pc) { return pc ? pc + shift : 0; }

static u8 kind_in_recording(int kind) { return kinds[kind & 63] ? kinds[kind & 63] : F_PASS; }

// The run is not that of the plan: it ends here.
static void depart(u64 why, u32 thread, u64 pos, u64 kind, u64 pc, u64 expected) {
    plan->why = why, plan->thread = thread, plan->pos = pos, plan->kind = kind, plan->pc = in_recording(pc);
    plan->expected = expected, plan->step = at_step;
    for (u32 k = 0; k < MOST_TOLD && k < plan->threads; k++) plan->at_tick[k] = numbered[k] ? numbered[k]->ticks : 0;
    plan->state = DEPARTED;
    syscall(SYS_exit_group, 125);
}

static void map_plan(char *p, u64 base) {
    plan = (struct plan *)p;
    steps = (struct step *)(p + plan->steps_at), known = (struct known *)(p + plan->threads_at);
    forks = (struct fork_of *)(p + plan->forks_at), ticks = (struct tick_entry *)(p + plan->ticks_at);
    needs = (u64 *)(p + plan->needs_at), next_step = (u64 *)(p + plan->first_at);
    held = mapped(plan->threads * sizeof *held), numbered = mapped(plan->threads * sizeof *numbered);
    if (plan->modules) shift = *(u64 *)(p + plan->modules_at) - base;
    following = plan->steps > 0 && held && numbered;
    plan->state = FOLLOWING, last_change = now_ms();
}

static void open_plan(const char *path, u64 base) {
    int planned = path ? open(path, O_RDWR | O_CLOEXEC) : -1;
    if (planned < 0) return;
    off_t size = lseek(planned, 0, SEEK_END);
    void *p = mmap(0, size > 0 ? (u64)size : 1, PROT_READ | PROT_WRITE, MAP_SHARED, planned, 0);
    if (p != MAP_FAILED && size >= (off_t)sizeof *plan && ((struct plan *)p)->magic == PLAN_MAGIC) map_plan(p, base);
    close(planned);
}

// The number that the recording gave to a goroutine. A timer is its own parent in the clock.
static u32 number_of(struct context *parent, u64 origin) {
    u32 mine = parent ? parent->number : NOBODY;
    for (u64 k = 0; plan && k < plan->forks; k++) {
        struct fork_of *f = &forks[k];
        if (origin == BY_TIMER ? f->parent == f->child : f->parent == mine && f->pos == CLOCK(parent->ticks))
            return (u32)f->child;
    }
    return NOBODY;
}

static void give_number(struct context *c, u32 number) {
    c->number = plan && number < plan->threads ? number : NOBODY;
    if (c->number != NOBODY) numbered[c->number] = c;
}

static u32 due(void) { return following && at_step < plan->steps ? steps[at_step].thread : NOBODY; }

static u64 expected_of(struct context *c, u64 tick) {
    struct known *mine = &known[c->number];
    return tick && tick <= mine->count ? ticks[mine->first + tick - 1].code : 0;
}

static int fits(u64 expected, u8 kind, u64 pc) {
    u64 place = expected >> 16;
    return !expected || ((expected & 127) == kind && (!place || !pc || place == in_recording(pc)));
}

static int needs_done(const struct step *s) {
    for (u64 k = 0; k < s->needs_count; k++)
        if (!steps[needs[s->needs + k]].done) return 0;
    return 1;
}

static void step_done(u64 k) {
    plan->early += k != at_step;
    steps[k].done = 1, next_step[steps[k].thread] = steps[k].next;
    while (at_step < plan->steps && steps[at_step].done) at_step++;
    plan->step = at_step;
}

static int look_at(u64 at, u64 size, u64 *to) {
    struct iovec mine = {to, size < 16 ? size : 16}, there = {(void *)at, size < 16 ? size : 16};
    to[0] = to[1] = 0;
    return process_vm_readv(getpid(), &mine, 1, &there, 1, 0) > 0;
}

// Both goroutines are right before their accesses.
static void both_stand(void) {
    for (int k = 0; k < 2; k++) {
        struct standing *one = &plan->standing[k];
        one->value_there = look_at(one->at, one->size, one->value);
    }
    plan->state = STANDS;
    if (at_step == plan->steps) syscall(SYS_exit_group, 0);
}

// Notes the place of a goroutine, with its stack.
static void note_standing(struct standing *s, const struct context *c, u64 pos, u8 kind) {
    const struct waiting *w = &c->waiting;
    s->thread = c->number, s->pos = pos, s->at = w->address, s->size = w->size, s->kind = kind;
    s->pc = in_recording(w->pc);
    for (u32 node = w->stack; node && s->frames < MOST_FRAMES; node = calls[node].parent)
        s->frame[2 * s->frames++ + 1] = in_recording(calls[node].pc);
}

static void stand(struct context *c, u64 pos) {
    struct waiting *w = &c->waiting;
    u64 expected = expected_of(c, pos >> 16);
    // What an atomic operation is shows when it is done.
    u8 kind = w->work ? (u8)(expected & 127) : kind_in_recording(w->kind);
    if (!fits(expected, kind, w->pc)) depart(OTHER_CODE, c->number, pos, kind, w->pc, expected);
    note_standing(&plan->standing[stood++], c, pos, kind);
    step_done(at_step);
    if (stood == 2) both_stand();
}

static void end_following(void) {
    following = 0;
    for (int k = 0; k < 2; k++) {
        struct standing *one = &plan->standing[k];
        one->after_there = look_at(one->at, one->size, one->after);
    }
    plan->state = DONE;
    if (plan->alone) yield_in = (u32)plan->alone + 1;
    if (plan->held_back) held_back = (u32)plan->standing[plan->held_back - 1].thread;
}

// The goroutine that did the last access of the plan has come to a hook, ended, or waits for something else.
static int is_last_done(u32 number) {
    if (due() != number || steps[at_step].type != LAST) return 0;
    step_done(at_step), end_following();
    return 1;
}

// Whether a goroutine has to wait before its next record. `waits` says that the record is known, and is an access.
static int must_wait(struct context *c, int waits) {
    if (!following || c->number == NOBODY || c->may_pass) return 0;
    while (due() == c->number) {
        struct step *s = &steps[at_step];
        u64 pos = CLOCK(c->ticks + 1);
        if (is_last_done(c->number)) return 0;
        if (pos > s->pos) depart(MISSED, c->number, pos, 0, c->waiting.pc, 0);
        if (pos < s->pos || s->type != STAND || !waits) return 0;
        stand(c, pos);
    }
    return 1;
}

// A record was made: the goroutine's clock goes on, and with it the plan.
static void tick(struct context *c, int kind, u64 pc) {
    c->ticks++, c->draws = 0, c->may_pass = 0, records++;
    if (!following || c->number == NOBODY) return;
    u64 pos = CLOCK(c->ticks), expected = expected_of(c, c->ticks), k = next_step[c->number];
    u8 now_kind = kind_in_recording(kind);
    plan->passed_ticks++, plan->last_pc = in_recording(pc), last_change = now_ms();
    if (!fits(expected, now_kind, pc)) {
        int swaps = now_kind + (expected & 127) == F_UPDATE + F_LOAD && kind >= LOAD;
        depart(swaps ? OTHER_OUTCOME : OTHER_CODE, c->number, pos, now_kind, pc, expected);
    }
    if (k >= plan->steps || steps[k].pos != pos) return;
    if (steps[k].type == WAIT) depart(NO_WAIT, c->number, pos, now_kind, pc, expected);
    if (steps[k].type != STEP) return;
    if (k != at_step && !needs_done(&steps[k])) depart(WOULD_WAIT, c->number, pos, now_kind, pc, expected);
    step_done(k);
    if (at_step == plan->steps) end_following();
}

// Whether a goroutine may pass its next record, though it is not its turn: that is no event, or all that it needs is
// done.
static int may_run_on(struct context *c) {
    u64 k = next_step[c->number];
    if (c->ticks >= known[c->number].count) return 0;
    if (!IS_EVENT(expected_of(c, c->ticks + 1))) return 1;
    return k < plan->steps && steps[k].type == STEP && steps[k].pos == CLOCK(c->ticks + 1) && needs_done(&steps[k]);
}

static u64 taken(u32 number) {
    u64 goroutine = held[number];
    held[number] = 0, held_count--;
    return goroutine;
}

// A goroutine waits: the recorder has it until its turn comes.
void __record_hold(struct context *c, u64 goroutine) { held[c->number] = goroutine, held_count++; }

// A goroutine that waits after the race; the one that is held back only if `also_held_back`.
static u64 any_held(int also_held_back) {
    for (u64 k = 0; k < plan->threads; k++) {
        u32 number = (u32)((round_of + k) % plan->threads);
        if (held[number] && (also_held_back || number != held_back)) {
            round_of = number + 1;
            return taken(number);
        }
    }
    return 0;
}

// The goroutine that goes on, if it is one that waits.
void __record_next(u64 *goroutine) {
    u32 number = due();
    *goroutine = 0, is_idle = 0;
    if (!held_count) return;
    if (following) {
        if (number != NOBODY && held[number]) *goroutine = taken(number);
        return;
    }
    idle_choices = seen_records == records ? idle_choices + 1 : 0, seen_records = records;
    if (idle_choices > MOST_IDLE) held_back = NOBODY;
    *goroutine = any_held(0);
}

// Nothing can run: returns a waiting goroutine that may run on, or lets a little time pass.
void __record_idle(u64 *goroutine) {
    *goroutine = 0;
    if (following) is_last_done(due());
    for (u64 k = 0; following && k < plan->threads && !*goroutine; k++) {
        u32 number = (u32)((round_of + k) % plan->threads);
        if (!held[number] || number == due() || !may_run_on(numbered[number])) continue;
        round_of = number + 1, numbered[number]->may_pass = 1;
        *goroutine = taken(number);
    }
    if (*goroutine) return;
    if (!following && ++idle_choices > MOST_IDLE) *goroutine = any_held(1);
    if (following && now_ms() - last_change > plan->patience_ms) {
        u32 number = due();
        depart(HANGS, number, 0, 0, 0, 0);
    }
    is_idle = 1;
    struct timespec little = {0, LOOK_NS};
    if (!*goroutine) nanosleep(&little, 0);
}

// Whether a plan is followed, or goroutines still wait for their turn; whether timers may fire.
void __record_follows(u64 *answer) { *answer = plan && (following || held_count); }
void __record_timers(u64 *answer) {
    u32 number = due();
    *answer = !following || is_idle || (number != NOBODY && numbered[number] && numbered[number]->is_timer);
}
