/* Condition variables. The recorder itself keeps the waiting threads: the kernel would else choose which woken thread
 * comes first, and in a followed run a woken thread must not have the mutex before its turn. Interposes
 * pthread_cond_*wait, pthread_cond_signal and pthread_cond_broadcast. Must not call the library's wait: only the
 * recorder's list knows who waits. */
#define OF_CONDITIONS
#include "conditions.h"
#include "accesses.h"
#include "callers.h"
#include "deadlocks.h"
#include "events.h"
#include "follow.h"
#include "locks.h"
#include "plan.h"
#include "turns.h"

static struct waiter *waiters;

static void add_waiter(struct waiter *w) {
    struct waiter **at = &waiters;
    lock_turns();
    while (*at) at = &(*at)->next;
    *at = w;
    unlock_turns();
}

static void remove_waiter(struct waiter *w) {
    struct waiter **at = &waiters;
    lock_turns();
    while (*at && *at != w) at = &(*at)->next;
    if (*at) *at = w->next;
    unlock_turns();
}

static void wake_waiters(pthread_cond_t *c, int all) {
    lock_turns();
    for (struct waiter *w = waiters; w; w = w->next)
        if (w->c == c && !w->signaled) {
            w->signaled = 1;
            unpark_locked(w);
            if (!all) break;
        }
    unlock_turns();
}

/* The plan says that the thread goes on now. It takes the signal of another waiter, where it has none; to wake without
 * any is allowed by POSIX, and it is counted. */
static int wakes_by_plan(struct waiter *mine) {
    struct tick_entry *e = entry_at(tick + 1);
    int outcome = e && (e->code & 127) == ACQUIRE ? (int)e->answer : 0;
    lock_turns();
    if (!mine->signaled && !outcome) {
        struct waiter *other = waiters;
        while (other && !(other->c == mine->c && other->signaled)) other = other->next;
        if (other) other->signaled = 0;
        else plan->spurious++;
    }
    unlock_turns();
    return outcome;
}

static int sleeps(struct waiter *w, const struct timespec *t, clockid_t clock) {
    while (!w->signaled) {
        if (t && is_past(t, clock)) return ETIMEDOUT;
        pthread_testcancel();
        park(w, t, clock);
    }
    return 0;
}

static int end_wait(struct waiter *w, int outcome) {
    remove_waiter(w);
    int answer = TRIES_LOCK(try_mutex(w->m), TO_WRITE, w->m, NULL, 0, w->pc);
    put_lock(ACQUIRE, (u64)w->m, (u64)outcome, w->pc);
    return answer && answer != EBUSY ? answer : outcome;
}

/* A thread that is cancelled while it waits has its mutex again, as POSIX says. */
static void end_cancelled_wait(void *w) { end_wait(w, 0); }

/* A wait and a signal read the object, which is written when it is made and when it is destroyed. */
static void waits_at(pthread_cond_t *c, u64 pc) { accessed(READ, c, 1, pc); }

static int wait_for(pthread_cond_t *c, pthread_mutex_t *m, const struct timespec *t, clockid_t clock, u64 pc) {
    struct waiter w = {c, m, pc, 0, NULL};
    int outcome;
    waits_at(c, pc);
    put_lock(RELEASE, (u64)m, 0, pc);
    add_waiter(&w);
    unlock_mutex(m);
    unpark(m);
    if (following) arrive(CLOCK(tick + 1, 0));
    pthread_cleanup_push(end_cancelled_wait, &w);
    outcome = following ? wakes_by_plan(&w) : sleeps(&w, t, clock);
    pthread_cleanup_pop(0);
    return end_wait(&w, outcome);
}

/* The waiters of a variable that processes share are kept by the system. */
#define SHARED_COND(c) ((c)->__data.__wrefs & 1)
#define CLOCK_OF_COND(c) ((c)->__data.__wrefs & 2 ? CLOCK_MONOTONIC : CLOCK_REALTIME)

int pthread_cond_wait(pthread_cond_t *c, pthread_mutex_t *m) {
    REAL_OF(pthread_cond_wait, "GLIBC_2.3.2", int, pthread_cond_t *, pthread_mutex_t *);
    if (IDLE) return real(c, m);
    return SHARED_COND(c) ? WAITED(real(c, m)) : wait_for(c, m, NULL, 0, LOCK_PC);
}

int pthread_cond_timedwait(pthread_cond_t *c, pthread_mutex_t *m, const struct timespec *t) {
    REAL_OF(pthread_cond_timedwait, "GLIBC_2.3.2", int, pthread_cond_t *, pthread_mutex_t *, const struct timespec *);
    if (IDLE) return real(c, m, t);
    return SHARED_COND(c) ? WAITED(real(c, m, t)) : wait_for(c, m, t, CLOCK_OF_COND(c), LOCK_PC);
}

int pthread_cond_clockwait(pthread_cond_t *c, pthread_mutex_t *m, clockid_t k, const struct timespec *t) {
    REAL(pthread_cond_clockwait, int, pthread_cond_t *, pthread_mutex_t *, clockid_t, const struct timespec *);
    if (IDLE) return real(c, m, k, t);
    return SHARED_COND(c) ? WAITED(real(c, m, k, t)) : wait_for(c, m, t, k, LOCK_PC);
}

/* A waiter of another process is woken too. */
int pthread_cond_signal(pthread_cond_t *c) {
    REAL_OF(pthread_cond_signal, "GLIBC_2.3.2", int, pthread_cond_t *);
    accessed(READ, c, 1, PC);
    if (!IDLE) keep_turn(), wake_waiters(c, 0);
    return real(c);
}

int pthread_cond_broadcast(pthread_cond_t *c) {
    REAL_OF(pthread_cond_broadcast, "GLIBC_2.3.2", int, pthread_cond_t *);
    accessed(READ, c, 1, PC);
    if (!IDLE) keep_turn(), wake_waiters(c, 1);
    return real(c);
}
