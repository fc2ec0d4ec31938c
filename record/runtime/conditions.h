/* What conditions.c shares. */
#pragma once
#include "recorder.h"
#include "callers.h"
#include "events.h"
#include "locks.h"
#include "turns.h"
#ifdef OF_CONDITIONS
#define SHARED static
#else
#define SHARED OTHERS
#endif

struct waiter {
    pthread_cond_t *c;
    pthread_mutex_t *m;
    u64 pc;
    volatile int signaled;
    struct waiter *next;
};
#define WAITED(call) \
    ({ \
        u64 pc_ = LOCK_PC; \
        waits_at(c, pc_); \
        put_lock(RELEASE, (u64)m, 0, pc_); \
        unpark(m); \
        int waited_ = OUTSIDE(call); \
        put_lock(ACQUIRE, (u64)m, (u64)waited_, pc_); \
        waited_; \
    })

SHARED void add_waiter(struct waiter *w);
SHARED void remove_waiter(struct waiter *w);
SHARED void wake_waiters(pthread_cond_t *c, int all);
SHARED int wakes_by_plan(struct waiter *mine);
SHARED int sleeps(struct waiter *w, const struct timespec *t, clockid_t clock);
SHARED void waits_at(pthread_cond_t *c, u64 pc);
SHARED int wait_for(pthread_cond_t *c, pthread_mutex_t *m, const struct timespec *t, clockid_t clock, u64 pc);
#undef SHARED
