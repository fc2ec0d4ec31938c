// Following a plan into a deadlock: each goroutine of it comes to a lock that another one holds, and waits there. Who
// holds a lock follows from the events of the run. ../runtime/requests.c does the same for C.

// A lock that a goroutine holds, and how often.
struct hold {
    u64 lock;
    struct context *of;
    u32 times, reads;
};

static struct hold *holds;
static u64 hold_count, hold_room;
static struct context *requesting[MOST_REQUESTS];
static u32 requesting_count;

static void add_hold(struct context *c, u64 lock, int reads) {
    if (hold_count == hold_room) {
        struct hold *more = mapped((hold_room ? 2 * hold_room : 4096) * sizeof *holds);
        if (!more) return;
        if (holds) memcpy(more, holds, hold_count * sizeof *holds), munmap(holds, hold_room * sizeof *holds);
        holds = more, hold_room = hold_room ? 2 * hold_room : 4096;
    }
    holds[hold_count++] = (struct hold){lock, c, 1, (u32)reads};
}

// The hold of a goroutine, or 0. The last ones end first, as a rule.
static struct hold *hold_of(struct context *c, u64 lock) {
    for (u64 k = hold_count; k > 0; k--)
        if (holds[k - 1].lock == lock && holds[k - 1].of == c) return &holds[k - 1];
    return 0;
}

// The hold that ends if a goroutine gives back a lock that it does not hold: another one may do that for the holder.
static struct hold *foreign_hold(u64 lock) {
    for (u64 k = hold_count; k > 0; k--)
        if (holds[k - 1].lock == lock) return &holds[k - 1];
    return 0;
}

static void take_lock(struct context *c, u64 lock, int reads) {
    struct hold *mine = hold_of(c, lock);
    if (mine) mine->times++;
    else add_hold(c, lock, reads);
}

static void give_lock(struct context *c, u64 lock) {
    struct hold *mine = hold_of(c, lock);
    if (!mine) mine = foreign_hold(lock);
    if (mine && !--mine->times) *mine = holds[--hold_count];
}

// Notes what an event does with a lock.
static void note_lock(struct context *c, u64 kind, u64 lock) {
    u8 recorded = kinds[EVENTS + kind];
    if (!following) return;
    if (recorded == F_ACQUIRE || recorded == F_WRITER || recorded == F_READER_IN)
        take_lock(c, lock, recorded == F_READER_IN);
    else if (recorded == F_RELEASE || recorded == F_READER_OUT) give_lock(c, lock);
}

static int is_requesting(const struct context *c) {
    for (u32 k = 0; k < requesting_count; k++)
        if (requesting[k] == c) return 1;
    return 0;
}

// Another goroutine of the deadlock that holds the lock of a request. A reader waits for no reader.
static u32 holder_of(u32 request) {
    struct standing *s = &plan->request[request];
    for (u64 k = 0; k < hold_count; k++) {
        struct hold *one = &holds[k];
        if (one->lock != s->at || one->of == requesting[request] || !is_requesting(one->of)) continue;
        if (!one->reads || s->kind != F_READER_IN) return one->of->number;
    }
    return NOBODY;
}

// The last goroutine waits. If none of the others holds a lock, its waiter may go on: that is no deadlock.
static void all_wait(void) {
    for (u32 k = 0; k < requesting_count; k++) {
        struct standing *s = &plan->request[k];
        u32 holder = holder_of(k);
        if (holder == NOBODY) depart(NOT_HELD, (u32)s->thread, s->pos, s->kind, requesting[k]->waiting.pc, 0);
        plan->holder[k] = holder;
    }
    step_done(at_step);
    plan->state = STANDS;
    if (!plan->hangs) syscall(SYS_exit_group, 0);
    following = 0;
}

// A goroutine is about to wait for a lock. If the plan has this request as its next step, that is done.
static void wait_in_plan(struct context *c, u64 kind, u64 lock) {
    if (!following || c->number == NOBODY || due() != c->number) return;
    struct step *s = &steps[at_step];
    struct call *call = &calls[c->stack];
    u64 pos = CLOCK(c->ticks + 1), expected = expected_of(c, c->ticks + 1);
    u8 wanted = kinds[EVENTS + kind];
    if (s->type != WAIT || s->pos != pos) return;
    if (!fits(expected, wanted, call->pc)) depart(OTHER_CODE, c->number, pos, wanted, call->pc, expected);
    c->waiting = (struct waiting){.stack = call->parent, .address = lock, .pc = call->pc};
    note_standing(&plan->request[requesting_count], c, pos, wanted);
    requesting[requesting_count++] = c, last_change = now_ms();
    if (requesting_count == plan->requests) all_wait();
    else step_done(at_step);
}
