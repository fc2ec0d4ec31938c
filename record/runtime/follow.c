/* Following a plan: the threads take the token in its order. A thread stops at its next hook, of any kind. Interposes
 * nothing; a debugger sets a breakpoint at racebench_race_stands. Must not allocate or call a function that the
 * recorder takes: a hook there would be a tick that no plan has. */
#define OF_FOLLOW
#include "follow.h"
#include "events.h"
#include "plan.h"
#include "requests.h"
#include "threads.h"
#include "turns.h"

static u32 lent[64];
static volatile u32 lends;
static u32 stood;
/* A thread that is held back after the race while others can go on, and for how many turns nothing was recorded. */
static volatile u32 held_back = NOBODY;
static u64 idle_turns, last_count;
static volatile u64 record_count;
/* While the thread whose turn it is waits for the world, others may run through hooks that are no events of the trace:
 * what it waits for may be a message of theirs. */
static volatile int open_to_others;
static __thread struct about about;
static u32 futile;

static void about_to(int kind, u64 at, u64 size, u64 pc) {
    about.kind = kind, about.at = at, about.size = size, about.pc = pc;
}

static inline void count_record(void) {
    progress++, record_count++, futile = 0;
    if (me < MOST_THREADS) ticks_of[me] = tick;
}

/* The thread whose turn it is. */
static u32 current(void) {
    if (lends) return lent[lends - 1];
    return at_step < plan->steps ? steps[at_step].thread : NOBODY;
}

static int is_due(u32 thread) { return plan && current() == thread; }

static int needs_done(struct step *s) {
    for (u64 i = 0; i < s->needs_count; i++)
        if (!steps[needs[s->needs + i]].done) return 0;
    return 1;
}

/* Whether another thread than that of the plan may pass its next hook: it is no event, or all that it needs is done. */
static int may_run_on(u32 thread) {
    if (!open_to_others || thread >= plan->threads) return 0;
    u64 t = ticks_of[thread], k = next_step[thread];
    if (t >= known[thread].count) return 0;
    if (!IS_EVENT(ticks[known[thread].first + t].code)) return 1;
    if (k >= plan->steps || steps[k].type != EVENT || steps[k].pos != CLOCK(t + 1, 0)) return 0;
    return needs_done(&steps[k]);
}

static int may_take(void) { return !following || is_due(me) || may_run_on(me); }

/* The turns' lock is held. */
static void step_done(u64 k) {
    if (k != at_step) plan->out_of_order++;
    steps[k].done = 1;
    next_step[steps[k].thread] = steps[k].next;
    while (at_step < plan->steps && steps[at_step].done) at_step++;
    plan->step = at_step;
}

/* A place to stop at for a debugger: both threads are right before their accesses. */
__attribute__((noinline, visibility("default"))) void racebench_race_stands(void) { __asm__ volatile("" ::: "memory"); }

static void name_thread(u64 kernel_id, const char *text) {
    char path[64];
    snprintf(path, sizeof path, "/proc/self/task/%d/comm", (int)kernel_id);
    int f = (int)syscall(SYS_openat, AT_FDCWD, path, O_WRONLY | O_CLOEXEC);
    if (f < 0) return;
    if (syscall(SYS_write, f, text, strlen(text)) < 0) {}
    syscall(SYS_close, f);
}

static u64 look_at(u64 at, u64 size, u64 *to) {
    struct iovec mine = {to, size < 16 ? size : 16}, there = {(void *)at, size < 16 ? size : 16};
    to[0] = to[1] = 0;
    return process_vm_readv(getpid(), &mine, 1, &there, 1, 0) > 0;
}

static void both_stand(void) {
    char text[16];
    for (int k = 0; k < 2; k++) {
        struct standing *o = &plan->standing[k];
        o->value_there = look_at(o->at, o->size, o->value);
        snprintf(text, sizeof text, "T%d at %c", (int)o->thread, "AB"[k]);
        name_thread(o->kernel_id, text);
    }
    __atomic_store_n(&plan->state, STANDS, __ATOMIC_SEQ_CST);
    racebench_race_stands();
    if (at_step == plan->steps) syscall(SYS_exit_group, 0);
}

static int fits(u64 expected, int kind, u64 pc) {
    int k = KIND_OF(expected);
    if (!expected) return 1;
    if (PLACE_OF(expected) != as_recorded(pc)) return 0;
    return k == kind || (kind == ATOMIC_UPDATE && k == ATOMIC_READ) ||
        (k == VOID && kind != ACQUIRE && kind != WRITER && kind != PASS);
}

/* Whether the thread's next step in the plan has this clock. */
static int is_planned(u64 pos) {
    u64 k = following && me < plan->threads ? next_step[me] : ULLONG_MAX;
    return following && k < plan->steps && steps[k].pos == pos;
}

/* Whether the thread is before the access that the recording has at this clock. */
static int is_at_access(u64 pos) {
    if (pos & 0xffff) return about.kind == FREED;
    return about.kind != FREED && fits(expected_at(pos >> 16), about.kind, about.pc);
}

/* Where this thread is, with its stack. */
static void note_standing(struct standing *s, u64 pos, u64 at, int kind, u64 pc) {
    s->thread = me, s->pos = pos, s->at = at, s->kind = (u64)kind, s->pc = as_recorded(pc);
    s->kernel_id = (u64)kernel_ids[me], s->frames = 0;
    for (u32 d = depth < CALLS ? depth : CALLS; d > 0 && s->frames < MOST_FRAMES; d--)
        s->frame[s->frames++] = (struct frame){as_recorded(calls[d - 1].body), as_recorded(calls[d - 1].site)};
}

/* The thread is right before its access. The turns' lock is held. */
static void stands(u64 pos) {
    if (!is_at_access(pos)) depart(OTHER_CODE, pos, (u64)about.kind, about.pc, expected_at(pos >> 16));
    struct standing *s = &plan->standing[stood++];
    note_standing(s, pos, about.at, about.kind, about.pc);
    s->size = about.size;
    step_done(at_step);
    progress++;
    if (stood == 2) both_stand();
}

static void end_following(void) {
    following = 0;
    for (int k = 0; k < 2; k++) {
        struct standing *o = &plan->standing[k];
        o->after_there = look_at(o->at, o->size, o->after);
    }
    plan->state = DONE;
    if (plan->alone) left_of_turn = plan->alone + 1;
    if (plan->held_back) held_back = (u32)plan->standing[plan->held_back - 1].thread;
}

/* One look of a thread that has come to a hook; whether it may pass. The turns' lock is held. */
static int may_pass(u64 pos) {
    if (!following) return 1;
    if (holder == me && is_due(me)) {
        struct step *s = &steps[at_step];
        if (s->thread == me && s->type == LAST) {
            step_done(at_step);
            end_following();
            return 1;
        }
        if (s->thread != me || pos < s->pos) return 1;
        if (pos > s->pos) depart(MISSED, pos, 0, about.pc, 0);
        /* Before the hook says what it is, it may pass: it comes here once more. */
        if (s->type == EVENT || !about.pc) return 1;
        if (s->type == WAIT) did_not_wait(pos);
        stands(pos);
        return 0;
    }
    return holder == me && may_run_on(me) && pos == CLOCK(tick + 1, 0);
}

/* At a hook, before its record: the thread waits for its turn in the plan. */
static void arrive(u64 pos) {
    int error = errno;
    u8 was = inside;
    inside = 1;
    if (me == NOBODY) stranger();
    for (;;) {
        lock_turns();
        if (may_pass(pos)) break;
        if (following && holder == me && is_due(me)) {
            unlock_turns();
            continue;
        }
        if (holder == me) hand_on();
        get_in_line_locked();
        unlock_turns();
        wait_in_line();
    }
    unlock_turns();
    inside = was;
    errno = error;
    if (!following && holder != me) take();
}

static void event_passed(u64 pos) {
    lock_turns();
    if (following && me < plan->threads && next_step[me] < plan->steps) {
        struct step *s = &steps[next_step[me]];
        if (s->type == EVENT && s->pos == pos) {
            step_done(next_step[me]);
            if (at_step == plan->steps) end_following();
        }
    }
    unlock_turns();
}

/* The hook's turn has come, and it is passed. */
static void passed_hook(u64 pos, int kind, u64 pc) {
    if (kind != FREED) {
        u64 expected = expected_at(tick);
        plan->passed_ticks++;
        plan->last_pc = as_recorded(pc);
        if (!fits(expected, kind, pc)) depart(OTHER_CODE, pos, (u64)kind, pc, expected);
    }
    about.pc = 0;
    event_passed(pos);
}

/* A hook that here makes no record, and may have made one in the recording. */
static void pass_silently(u64 pc) {
    if (IDLE) return;
    if (following) {
        about_to(VOID, 0, 0, pc);
        arrive(CLOCK(tick + 1, 0));
    }
    tick++, sub = 0;
    about.pc = 0;
    if (me < MOST_THREADS) ticks_of[me] = tick;
    if (following) event_passed(CLOCK(tick, 0));
}

/* A compare-and-swap that was recorded as done must be done here, and else not. */
static void check_swap(int done, u64 pc) {
    u64 e = following ? expected_at(tick) : 0;
    if (e && (KIND_OF(e) == ATOMIC_UPDATE) != !!done) depart(OTHER_OUTCOME, CLOCK(tick, 0), ATOMIC_UPDATE, pc, e);
}

static u32 choose_in_plan(void) {
    static u32 round;
    round++;
    for (u32 k = 0; k < waiting_count; k++)
        if (is_due(waiting[k])) return k;
    for (u32 i = 0; i < waiting_count; i++) {
        u32 k = (i + round) % waiting_count;
        if (may_run_on(waiting[k])) return k;
    }
    return NOBODY;
}

/* Which of the waiting threads goes on: by the plan, else drawn by chance. The turns' lock is held. */
static u32 choose(void) {
    if (!waiting_count) return NOBODY;
    if (following) return choose_in_plan();
    if (rescuing) return waiting_count - 1;
    u32 k = draw(waiting_count);
    if (held_back == NOBODY) return k;
    idle_turns = record_count == last_count ? idle_turns + 1 : 0;
    last_count = record_count;
    if (waiting_count == 1 || idle_turns > 400) held_back = NOBODY;
    else
        while (waiting[k] == held_back) k = (k + 1) % waiting_count;
    return k;
}

/* The thread that did the last access of the plan gives its turn away: the plan is at its end. The turns' lock is
 * held. */
static void last_access_done(void) {
    if (at_step < plan->steps && steps[at_step].type == LAST && steps[at_step].thread == me) {
        step_done(at_step);
        end_following();
    }
}

static void hangs(void) {
    u32 thread = current();
    me = thread;
    depart(HANGS, 0, holder, 0, 0);
}

/* ---- waiting, in the thread's own turn of the plan ---- */

static u64 last_change;

static u64 now_ms(void) {
    struct timespec t;
    syscall(SYS_clock_gettime, CLOCK_MONOTONIC, &t);
    return (u64)t.tv_sec * 1000 + (u64)t.tv_nsec / 1000000;
}

static int given_up(int tries) {
    if (tries <= 1) last_change = now_ms();
    return is_due(me) && now_ms() - last_change > plan->patience_ms;
}

/* Lets others run on for as long as something is recorded. */
static void moment(void) {
    struct timespec t = {0, 1000000};
    int error = errno;
    u64 before = record_count;
    open_to_others = 1;
    give();
    int mine = is_due(me);
    for (int k = 0, still = 0; k < 100 && still < (mine ? 3 : 1); k++) {
        u64 seen = record_count;
        syscall(SYS_nanosleep, &t, NULL);
        still = seen == record_count ? still + 1 : 0;
    }
    if (mine) open_to_others = 0;
    take();
    progress++;
    if (record_count != before) last_change = now_ms();
    errno = error;
}

static int waits_in_plan(void) {
    if (!is_due(me) || holder != me) return 0;
    if (++futile > 2000) depart(WOULD_WAIT, CLOCK(tick + 1, 0), 0, about.pc, expected_at(tick + 1));
    moment();
    return 1;
}

static void world_differs(void) { depart(OTHER_WORLD, CLOCK(tick + 1, 0), ANSWER, about.pc, expected_at(tick + 1)); }

/* The entry of the next tick if it is of this kind and place; the thread has its turn then. */
static struct tick_entry *world_expected(int kind, u64 pc) {
    if (!following || IDLE) return NULL;
    about_to(kind, 0, 0, pc);
    arrive(CLOCK(tick + 1, 0));
    if (!following) return NULL;
    struct tick_entry *e = entry_at(tick + 1);
    return e && PLACE_OF(e->code) == as_recorded(pc) && KIND_OF(e->code) == kind ? e : NULL;
}

/* Lets a thread run to its end, for one that joins it. */
static void lend_to(u32 thread) {
    if (lends < 64) lent[lends++] = thread;
}

static void take_back_lent(void) {
    if (lends) lends--;
}

/* A joiner waits while the other runs by its leave. */
static void take_again(void) {
    struct timespec little = {0, 200000};
    syscall(SYS_nanosleep, &little, NULL);
    lock_turns();
    if (holder == NOBODY && waiting_count) hand_on();
    unlock_turns();
}
