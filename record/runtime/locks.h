/* What locks.c shares. */
#pragma once
#include "recorder.h"
#include "deadlocks.h"
#ifdef OF_LOCKS
#define SHARED static
#else
#define SHARED OTHERS
#endif

/* A call that tries, again and again while it is answered `busy`, for as long as `until` says; `parks` is the call that
 * waits in between. */
#define TRIES(busy, call, parks, until, clock) \
    ({ \
        int answer_, late_ = 0; \
        while ((answer_ = (call)) == (busy) && !late_) { \
            late_ = (parks); \
            if (!late_ && (until) && is_past((until), (clock))) late_ = 1; \
        } \
        answer_ == (busy) ? ETIMEDOUT : answer_; \
    })
#define TRIES_LOCK(call, reads, at, until, clock, pc) \
    TRIES(EBUSY, (call), park_for_lock((reads), (at), (until), (clock), (pc)), (until), (clock))

SHARED int is_past(const struct timespec *t, clockid_t clock);
SHARED u8 order_of_lock(int how);
SHARED u64 put_lock(int kind, u64 at, u64 answer, u64 pc);
SHARED int took_by(int how, int answer, const volatile void *at, u64 pc);
SHARED int took(int answer, const volatile void *at, u64 pc);
SHARED int try_mutex(pthread_mutex_t *m);
SHARED int unlock_mutex(pthread_mutex_t *m);
SHARED int try_lock(pthread_mutex_t *m, u64 pc);
SHARED int lock(pthread_mutex_t *m, const struct timespec *until, clockid_t clock, u64 pc);
SHARED int unlock(pthread_mutex_t *m, u64 pc);
#undef SHARED
