/* Threads: their numbers, their begin and their end. Interposes pthread_create, the joins, pthread_detach,
 * pthread_cancel and pthread_setcanceltype. Must not put a record after end_of_thread, which gives the token away for
 * good. */
#define OF_THREADS
#include "threads.h"
#include "accesses.h"
#include "atomics.h"
#include "attributes.h"
#include "callers.h"
#include "events.h"
#include "follow.h"
#include "frames.h"
#include "openmp.h"
#include "plan.h"
#include "turns.h"
#include "watcher.h"
#include "words.h"
#include "world.h"

struct child {
    void *(*body)(void *);
    void *argument;
    u32 number;
    u8 is_detached;
    sigset_t mask;
};

static u32 threads = 1;
/* A thread's id while it can be joined, whether it waits for its first turn, and whether it has had its last. */
static pthread_t ids[MOST_THREADS];
static volatile u8 joinable[MOST_THREADS], came[MOST_THREADS], gone[MOST_THREADS];
/* A thread of libgomp ends when the library is done with it, in nobody's turn. */
static u8 in_library[MOST_THREADS];
static pthread_key_t last_turn;
/* The function that this thread runs. */
static __thread u64 my_body;

static u32 number_of(pthread_t id) {
    u32 n = threads < MOST_THREADS ? threads : MOST_THREADS;
    for (u32 k = 0; k < n; k++)
        if (joinable[k] && pthread_equal(ids[k], id)) return k;
    return NOBODY;
}

/* The thread pointer; the thread's own variables are below it. */
static u64 thread_pointer(void) {
#if defined __x86_64__
    u64 pointer;
    __asm__("mov %%fs:0, %0" : "=r"(pointer));
    return pointer;
#else
    return 0;
#endif
}

static void put_stack(u64 size) {
    put_record((struct record){
        .kind = STACK, .at = stack_start, .size = size > UINT_MAX ? UINT_MAX : (u32)size, .answer = thread_pointer()});
}

/* The stack is a variable of the thread's own. */
static void own_stack(void) {
    pthread_attr_t attributes;
    void *at;
    size_t n;
    u8 was = inside;
    inside = 1;
    int there = !pthread_getattr_np(pthread_self(), &attributes);
    if (there) {
        there = !pthread_attr_getstack(&attributes, &at, &n);
        pthread_attr_destroy(&attributes);
    }
    inside = was;
    if (!there) return;
    stack_start = (u64)at, stack_size = n;
    note_stack();
    put_stack(n);
}

/* A thread that was not made by pthread_create has a number and no fork. */
static void stranger(void) {
    has_threads = 1;
    me = __atomic_fetch_add(&threads, 1, SC);
    if (me >= MOST_THREADS) return;
    kernel_ids[me] = (pid_t)syscall(SYS_gettid);
    __atomic_fetch_add(&head->strangers, 1, SC);
    __atomic_fetch_add(&living, 1, SC);
    pthread_setspecific(last_turn, (void *)1);
    watch();
}

/* A thread ends with robust mutexes: it releases them, and the kernel notifies the next owner. `entry` is in the list
 * of the kernel, as far after the word of the mutex as the list says. */
#define MOST_ROBUST 64
static void leave_robust_mutexes(void) {
    struct robust_list_head *held = NULL;
    size_t n;
    if (IDLE || syscall(SYS_get_robust_list, 0, &held, &n) || !held) return;
    struct robust_list *entry = held->list.next;
    for (u32 k = 0; k < MOST_ROBUST && entry && entry != &held->list; k++) {
        entry = (struct robust_list *)((u64)entry & ~1ull);
        put(RELEASE, (u64)entry + (u64)held->futex_offset, 0, my_body);
        looks_again = LOOKS_AGAIN;
        entry = entry->next;
    }
}

/* Destructors of other keys may run code of the program: the last turn ends in the last round of destructors. No
 * handler comes in it or later. */
static void end_of_thread(void *round) {
    u64 k = (u64)round;
    if (k < PTHREAD_DESTRUCTOR_ITERATIONS && pthread_setspecific(last_turn, (void *)(k + 1)) == 0) return;
    if (me < MOST_THREADS && on && !in_library[me]) take();
    sigset_t all;
    __real_sigfillset(&all);
    __real_pthread_sigmask(SIG_SETMASK, &all, NULL);
    if (me < MOST_THREADS) {
        if (on && !in_library[me]) take(), leave_robust_mutexes();
        forget_stack();
        gone[me] = 1;
        unpark(&gone[me]);
        give();
        __atomic_fetch_sub(&living, 1, SC);
    }
    inside = 1;
    end_calls();
}

/* One that is made detached can't be joined. Who had this id before has ended, and was not joined. */
static void note_id(int is_detached) {
    pthread_t mine = pthread_self();
    for (u32 k = number_of(mine); k != NOBODY; k = number_of(mine)) joinable[k] = 0;
    ids[me] = mine;
    joinable[me] = !is_detached;
}

static void *child_body(void *p) {
    inside = 1;
    struct child c = *(struct child *)p;
    __libc_free(p);
    me = c.number;
    my_body = (u64)c.body + 1;
    pthread_setspecific(last_turn, (void *)1);
    kernel_ids[me] = (pid_t)syscall(SYS_gettid);
    note_id(c.is_detached);
    if (is_of_openmp(c.body)) {
        in_library[me] = 1;
        __atomic_store_n(&came[me], 1, SC);
        inside = 0;
        __real_pthread_sigmask(SIG_SETMASK, &c.mask, NULL);
        return c.body(c.argument);
    }
    /* The maker goes on when this thread waits for its turn, so that the order of turns follows from the seed alone. */
    get_in_line();
    __atomic_store_n(&came[me], 1, SC);
    wait_in_line();
    inside = 0;
    own_stack();
    __real_pthread_sigmask(SIG_SETMASK, &c.mask, NULL);
    return c.body(c.argument);
}

static int is_detached(const pthread_attr_t *attributes) {
    int state;
    return attributes && !__real_pthread_attr_getdetachstate(attributes, &state) && state == PTHREAD_CREATE_DETACHED;
}

/* A thread that begins has no signals until it has its number and its turn. `mask` is the one that it gets then. */
static void hold_signals(const pthread_attr_t *attributes, sigset_t *mask, sigset_t *before) {
    sigset_t all;
    __real_sigfillset(&all);
    __real_pthread_sigmask(SIG_SETMASK, &all, before);
    if (!attributes || pthread_attr_getsigmask_np(attributes, mask)) *mask = *before;
}

static int create(pthread_t *id, const pthread_attr_t *attributes, void *(*body)(void *), void *argument, u64 pc) {
    REAL_OF(pthread_create, "GLIBC_2.34", int, pthread_t *, const pthread_attr_t *, void *(*)(void *), void *);
    if (IDLE) return real(id, attributes, body, argument);
    if (making_team) pc = making_team;
    has_threads = 1;
    watch();
    note_modules();
    maybe_give();
    reads_attributes(attributes, pc);
    /* The C library writes the number before the thread begins. */
    if (id) put(WRITE, (u64)id, sizeof *id, pc);
    u32 number = planned_child();
    if (number == NOBODY) number = __atomic_fetch_add(&threads, 1, SC);
    struct child *c = number < MOST_THREADS ? __libc_malloc(sizeof *c) : NULL;
    if (!c) return real(id, attributes, body, argument);
    *c = (struct child){body, argument, number, (u8)is_detached(attributes), {{0}}};
    sigset_t before;
    u64 place = put(FORK, number, 0, pc);
    __atomic_fetch_add(&living, 1, SC);
    inside = 1;
    hold_signals(attributes, &c->mask, &before);
    int answer = real(id, attributes, child_body, c);
    if (!answer)
        while (!__atomic_load_n(&came[number], SC)) syscall(SYS_sched_yield);
    inside = 0;
    __real_pthread_sigmask(SIG_SETMASK, &before, NULL);
    if (answer) {
        __libc_free(c);
        __atomic_fetch_sub(&living, 1, SC);
        take_back(place);
    }
    return answer;
}

int pthread_create(pthread_t *id, const pthread_attr_t *attributes, void *(*body)(void *), void *argument) {
    return create(id, attributes, body, argument, PC);
}

static int joined(int answer, u32 number, u64 pc) {
    if (answer == 0 && number != NOBODY && !IDLE) {
        joinable[number] = 0;
        put(JOIN, number, 0, pc);
    }
    return answer;
}

/* What the thread gave back is written for the joiner. */
static int joined_with(int answer, u32 number, void **value, u64 pc) {
    joined(answer, number, pc);
    if (value && !answer) wrote(value, sizeof *value, pc);
    return answer;
}

/* In a followed run the thread that is waited for goes on by the joiner's leave. */
static void wait_for_end(u32 number) {
    if (following && !gone[number]) {
        lend_to(number);
        while (following && !gone[number]) give(), take_again();
        take_back_lent();
        take();
    }
    while (!gone[number]) {
        pthread_testcancel();
        park(&gone[number], NULL, 0);
    }
}

/* What the C library gives back of a thread that is gone is its own. No cancelling leaves this call, and handlers come
 * after it. */
static int join_gone(int (*real)(pthread_t, void **), pthread_t id, void **value) {
    u8 was = inside;
    int state;
    __real_pthread_setcancelstate(PTHREAD_CANCEL_DISABLE, &state);
    inside = IN_TURNS;
    int answer = real(id, value);
    leave_turns(was);
    __real_pthread_setcancelstate(state, NULL);
    return answer;
}

static int join(pthread_t id, void **value, u64 pc) {
    REAL_OF(pthread_join, "GLIBC_2.34", int, pthread_t, void **);
    if (IDLE) return real(id, value);
    maybe_give();
    u32 number = number_of(id);
    if (number == NOBODY || number == me) return OUTSIDE(real(id, value));
    wait_for_end(number);
    short_wait = 1;
    int answer = join_gone(real, id, value);
    short_wait = 0;
    return joined_with(answer, number, value, pc);
}

int pthread_join(pthread_t id, void **value) { return join(id, value, PC); }

int pthread_tryjoin_np(pthread_t id, void **value) {
    REAL(pthread_tryjoin_np, int, pthread_t, void **);
    u32 number = number_of(id);
    return joined_with(OUTSIDE(real(id, value)), number, value, PC);
}

int pthread_timedjoin_np(pthread_t id, void **value, const struct timespec *t) {
    REAL(pthread_timedjoin_np, int, pthread_t, void **, const struct timespec *);
    u32 number = number_of(id);
    return joined_with(OUTSIDE(real(id, value, t)), number, value, PC);
}

int pthread_clockjoin_np(pthread_t id, void **value, clockid_t c, const struct timespec *t) {
    REAL(pthread_clockjoin_np, int, pthread_t, void **, clockid_t, const struct timespec *);
    u32 number = number_of(id);
    return joined_with(OUTSIDE(real(id, value, c, t)), number, value, PC);
}

int pthread_detach(pthread_t id) {
    REAL(pthread_detach, int, pthread_t);
    u32 number = number_of(id);
    if (number != NOBODY) joinable[number] = 0;
    return real(id);
}

/* A thread that waits in the recorder looks whether it was cancelled. */
int pthread_cancel(pthread_t id) {
    REAL_OF(pthread_cancel, "GLIBC_2.34", int, pthread_t);
    if (IDLE) return real(id);
    maybe_give();
    u32 number = number_of(id);
    int answer = real(id);
    lock_turns();
    for (u32 k = 0; k < parked_count; k++)
        if (parked[k] == number) {
            leave_parked(k);
            waiting[waiting_count++] = number;
            break;
        }
    unlock_turns();
    return answer;
}

static void set_cancel_type(int type) {
    REAL(pthread_setcanceltype, int, int, int *);
    int before;
    real(type, &before);
}

static u8 hold_cancel(void) {
    if (!cancels_at_once || holds_cancel) return 0;
    set_cancel_type(PTHREAD_CANCEL_DEFERRED);
    return holds_cancel = 1;
}

static void let_cancel(u8 held) {
    if (!held) return;
    holds_cancel = 0;
    set_cancel_type(PTHREAD_CANCEL_ASYNCHRONOUS);
}

int pthread_setcanceltype(int type, int *before) {
    REAL(pthread_setcanceltype, int, int, int *);
    int answer = real(type, before);
    if (!answer) cancels_at_once = type == PTHREAD_CANCEL_ASYNCHRONOUS;
    FILLED(before, !answer);
    return answer;
}
