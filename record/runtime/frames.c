/* Frames: which activation of a function has an address of a stack. A FRAME record comes before the first record of an
 * activation's memory. Interposes nothing. put_record calls note_frame, which must not call put_record; it takes the
 * place of its own record itself. The end of a call is a record of its hook. */
#define OF_FRAMES
#include "frames.h"
#include "events.h"
#include "follow.h"
#include "turns.h"
#include "words.h"

/* The stack of a thread, the lowest address that the thread had in use at its last record, and whether a call of it set
 * memory aside after it began. */
struct stack {
    u64 start, end, used_from;
    struct call **calls;
    u32 *depth;
    u8 sets_aside;
};
static struct stack stack_of[MOST_THREADS];
/* The threads that have a stack, in the order of their stacks. */
static u32 stacks_in_order[MOST_THREADS];
static volatile u32 stack_count;
/* Where this thread last found no stack, as long as stacks have changed so often and no more. */
static __thread struct {
    u64 from, size;
    u32 changes;
} no_stack;
static volatile u32 stack_changes;

#if defined __x86_64__
/* How many stacks start at an address or below it. */
static u32 stacks_up_to(u64 at) {
    u32 first = 0, last = stack_count;
    while (first < last) {
        u32 middle = (first + last) / 2;
        if (stack_of[stacks_in_order[middle]].start <= at) first = middle + 1;
        else last = middle;
    }
    return first;
}

static u32 thread_at(u64 at) {
    u32 changes = stack_changes, k = stacks_up_to(at);
    u32 thread = k ? stacks_in_order[k - 1] : NOBODY;
    u64 end = k ? stack_of[thread].end : 0;
    if (at < end) return thread;
    u64 next = k < stack_count ? stack_of[stacks_in_order[k]].start : ULLONG_MAX;
    no_stack.changes = changes, no_stack.from = end, no_stack.size = next - end;
    return NOBODY;
}

static void drop_stack(u32 k) {
    stack_count--;
    memmove(&stacks_in_order[k], &stacks_in_order[k + 1], (stack_count - k) * sizeof *stacks_in_order);
}

static void forget_stack(void) {
    if (me >= MOST_THREADS || !stack_of[me].end) return;
    lock_turns();
    u32 k = stacks_up_to(stack_of[me].start);
    if (k && stacks_in_order[k - 1] == me) drop_stack(k - 1);
    stack_of[me].end = 0;
    stack_changes++;
    unlock_turns();
}

/* The stack of a thread that ended unseen may be there still. */
static void note_stack(void) {
    if (me >= MOST_THREADS) return;
    forget_stack();
    lock_turns();
    stack_of[me] = (struct stack){stack_start, stack_start + stack_size, 0, &calls, &depth, 0};
    u32 k = stacks_up_to(stack_start);
    while (k && stack_of[stacks_in_order[k - 1]].end > stack_start) drop_stack(--k);
    while (k < stack_count && stack_of[stacks_in_order[k]].start < stack_start + stack_size) drop_stack(k);
    memmove(&stacks_in_order[k + 1], &stacks_in_order[k], (stack_count - k) * sizeof *stacks_in_order);
    stacks_in_order[k] = me;
    stack_count++;
    stack_changes++;
    unlock_turns();
}

/* The lowest address of a call's frame as it began. */
static u64 start_of(const struct call *c) { return c->stack + 2 * sizeof(u64); }

static int is_return(const struct call *c, u64 at) { return *(volatile u64 *)at == c->return_to; }

/* The end of a call's frame: its return address is right below. In a function that has one, the frame pointer leads
 * there; else the caller's frame may begin there. */
static u64 end_of(struct call *c, u64 outer) {
    if (c->end) return c->end;
    u64 start = start_of(c), step = sizeof(u64);
    if (c->base >= start && c->base < outer && outer - c->base >= 2 * step && c->base % step == 0)
        if (is_return(c, c->base + step)) return c->end = c->base + 2 * step;
    if (outer >= start + step && is_return(c, outer - step)) return c->end = outer;
    for (u64 at = start; at + step <= outer; at += step)
        if (is_return(c, at)) return c->end = at + step;
    return c->end = start;
}

static int is_in_stack(const struct stack *s, const struct call *c) {
    return start_of(c) - s->start < s->end - s->start;
}

/* The outermost of the calls whose frames begin at an address or below it; `count` if none does. In a handler of a
 * signal that has another stack, the calls on that stack don't count. */
static u32 first_call_at(const struct stack *s, const struct call *c, u32 count, u64 at) {
    u32 first = 0, last = count;
    if (!is_in_stack(s, &c[count - 1])) {
        while (first < count && (!is_in_stack(s, &c[first]) || start_of(&c[first]) > at)) first++;
        return first;
    }
    while (first < last) {
        u32 middle = (first + last) / 2;
        if (start_of(&c[middle]) <= at) last = middle;
        else first = middle + 1;
    }
    return first;
}

static u64 outer_end(const struct stack *s, const struct call *c, u32 k) {
    return k && is_in_stack(s, &c[k - 1]) ? start_of(&c[k - 1]) : s->end;
}

/* The call that has an address of a stack, or NULL, and from where on the memory up to its frame's end is its own. What
 * is between two frames the outer call has set aside, and so has the innermost what is below all. */
static struct call *call_at(const struct stack *s, u64 at, u64 *from) {
    struct call *c = *s->calls;
    u32 count = *s->depth < CALLS ? *s->depth : CALLS;
    if (!c || !count) return NULL;
    u32 k = first_call_at(s, c, count, at);
    if (k == count) {
        *from = at & ~15ull;
        return is_in_stack(s, &c[k - 1]) && *s->depth <= CALLS ? &c[k - 1] : NULL;
    }
    if (!is_in_stack(s, &c[k])) return NULL;
    *from = start_of(&c[k]);
    u64 end = end_of(&c[k], outer_end(s, c, k));
    if (at < end) return &c[k];
    *from = end;
    return k && is_in_stack(s, &c[k - 1]) ? &c[k - 1] : NULL;
}

static inline int is_of_frames(int kind, int of) {
    switch (kind) {
    case READ:
    case WRITE:
    case ATOMIC_READ:
    case ATOMIC_WRITE:
    case ATOMIC_UPDATE:
    case ACQUIRE:
    case RELEASE:
    case PASS:
    case WRITER:
    case TRIED:
    case READER_IN:
    case READER_OUT:
    case ARRIVED:
    case WENT_ON: return of == OF_MEMORY;
    default: return 0;
    }
}

/* What a call had set aside for itself is that of a later one, if its frame is there. */
static void take_from_outer(const struct stack *s, struct call *c, u64 end) {
    for (struct call *outer = c; outer-- > *s->calls;)
        if (outer->from && outer->from < end) outer->from = end;
}

static void put_frame(struct stack *s, u32 thread, struct call *c, u64 from, u64 end) {
    struct record r = {.kind = FRAME,
                       .at = from,
                       .size = (u32)(end - from),
                       .pc = c->body,
                       .answer = start_of(c),
                       .thread = (u16)thread,
                       .order = c->from != 0};
    c->from = from;
    if (from < start_of(c)) s->sets_aside = 1;
    if (s->sets_aside) take_from_outer(s, c, end);
    if (thread != me || r.answer != from || !fits_word(r)) {
        struct record whole = r;
        put_long(&whole, 0);
        return;
    }
    put_word(r, tick - 1, tick - 1);
}

/* Records the frame of a call, if an address is the first of it, or below what was recorded of it. */
static void note_frame_in(u32 thread, u64 at) {
    struct stack *s = &stack_of[thread];
    u64 from;
    struct call *c = call_at(s, at, &from);
    if (!c) return;
    if (thread != me) c->is_shared = 1;
    if (c->from && from >= c->from) return;
    u32 k = (u32)(c - *s->calls);
    put_frame(s, thread, c, from, end_of(c, outer_end(s, *s->calls, k)));
}

/* Before a record of memory. A thread ends its calls only with the lock of turns. Below what another thread has in use
 * there is no frame. */
static void note_frame_at(u64 at) {
    if (at - stack_start < stack_size) {
        if (stack_of[me].end) note_frame_in(me, at);
        return;
    }
    u32 thread = thread_at(at);
    if (thread == NOBODY) return;
    lock_turns();
    int is_in_use = at >= stack_of[thread].used_from && at < stack_of[thread].end;
    if (is_in_use) note_frame_in(thread, at);
    unlock_turns();
}

static inline void note_frame(u64 at) {
    if (at - no_stack.from >= no_stack.size || no_stack.changes != stack_changes) note_frame_at(at);
}

static void note_use_of_stack(void) {
    if (me < MOST_THREADS) stack_of[me].used_from = (u64)__builtin_frame_address(0);
}

/* Whether the end of the innermost call is recorded: another thread used its frame, or will in a run that is followed. */
static int is_noted_end(void) {
    if (!depth || depth > CALLS) return 0;
    int is_noted = calls[depth - 1].is_shared || is_planned(CLOCK(tick, FRAME_ENDS | depth));
    return is_noted && me < MOST_THREADS && stack_of[me].end;
}

/* The innermost call ends: its frame is written, as a block is by a free. Until this thread has its stack in use again,
 * who still uses the frame comes to the activation that ended. If the function jumps to the hook, the return address is
 * its caller's, and the place is that of its begin. */
static void note_end(u64 pc) {
    struct call *c = &calls[depth - 1];
    u64 end = end_of(c, outer_end(&stack_of[me], calls, depth - 1)), from = c->from ? c->from : start_of(c);
    if (from >= end) return;
    put_record((struct record){.kind = FREED,
                               .at = from,
                               .size = (u32)(end - from),
                               .pc = pc == c->return_to ? c->body : pc,
                               .order = OF_FRAME});
    stack_of[me].used_from = end;
}
#else
static int is_noted_end(void) { return 0; }
static void note_end(u64 pc) { (void)pc; }
static void forget_stack(void) {}
static void note_stack(void) {}
static inline int is_of_frames(int kind, int of) {
    (void)kind, (void)of;
    return 0;
}
static inline void note_frame(u64 at) { (void)at; }
static void note_use_of_stack(void) {}
#endif
