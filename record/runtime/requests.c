/* Following a plan into a deadlock: each thread of it comes to a lock that another one holds, and waits there. Interposes
 * nothing; a debugger sets a breakpoint at racebench_deadlock_stands. Must not allocate or call a function that the
 * recorder takes, as in follow.c. */
#define OF_REQUESTS
#include "requests.h"
#include "deadlocks.h"
#include "events.h"
#include "follow.h"
#include "plan.h"
#include "turns.h"

static u32 requesting[MOST_REQUESTS], requesting_count;

/* A place to stop at for a debugger: each thread of the deadlock waits for a lock that another one holds. */
__attribute__((noinline, visibility("default"))) void racebench_deadlock_stands(void) {
    __asm__ volatile("" ::: "memory");
}

/* The last thread waits. If none of the others holds a lock, its waiter may go on: that is no deadlock. The turns' lock
 * is held. */
static void all_wait(void) {
    char text[16];
    find_holders(requesting, requesting_count, plan->holder);
    for (u32 k = 0; k < requesting_count; k++) {
        struct standing *s = &plan->request[k];
        if (plan->holder[k] == NOBODY) me = requesting[k], depart(NOT_HELD, s->pos, s->kind, wanted[me].pc, 0);
    }
    for (u32 k = 0; k < requesting_count; k++) {
        snprintf(text, sizeof text, "T%d waits", (int)requesting[k]);
        name_thread(plan->request[k].kernel_id, text);
    }
    step_done(at_step);
    __atomic_store_n(&plan->state, STANDS, __ATOMIC_SEQ_CST);
    racebench_deadlock_stands();
    if (!plan->hangs) syscall(SYS_exit_group, 0);
    following = 0;
}

/* The kind of the record that this request would become. */
static int kind_of(const struct record *request, u64 expected) {
    if (request->size) return READER_IN;
    return KIND_OF(expected) == WRITER ? WRITER : ACQUIRE;
}

/* The thread waits for a lock, in its turn. If the plan has this request as its next step, that is done. */
static void wait_in_plan(const struct record *request) {
    if (!is_due(me) || holder != me || at_step >= plan->steps) return;
    struct step *s = &steps[at_step];
    if (s->type != WAIT || s->thread != me || s->pos != request->pos) return;
    u64 expected = expected_at(tick + 1);
    int kind = kind_of(request, expected);
    if (kind != KIND_OF(expected) || as_recorded(request->pc) != PLACE_OF(expected))
        depart(OTHER_CODE, request->pos, (u64)kind, request->pc, expected);
    lock_turns();
    note_standing(&plan->request[requesting_count], request->pos, request->at, kind, request->pc);
    requesting[requesting_count++] = me;
    progress++;
    if (requesting_count == plan->requests) all_wait();
    else step_done(at_step);
    unlock_turns();
}

/* A thread comes to a hook where the plan wants it to wait for a lock: it has the lock, or does something else. */
static void did_not_wait(u64 pos) {
    u64 expected = expected_at(pos >> 16);
    int is_it = KIND_OF(expected) == about.kind && PLACE_OF(expected) == as_recorded(about.pc);
    depart(is_it ? NO_WAIT : OTHER_CODE, pos, (u64)about.kind, about.pc, expected);
}
