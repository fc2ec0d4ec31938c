/* Two threads beside those of the program: one takes the token from a thread that keeps it, and one waits for it.
 * Interposes nothing. Both have `inside` set and no number, so they must not put a record, take the token or open a
 * descriptor of the program's table. */
#define OF_WATCHER
#include "watcher.h"
#include "deadlocks.h"
#include "events.h"
#include "follow.h"
#include "plan.h"
#include "turns.h"

/* Milliseconds of a processor. */
#define LONG_RUN 1000

/* Takes the token from a thread that has neither made a record nor given it away while another waits for it: after two
 * looks if it sleeps in a call that the recorder does not know, and if it ran for a second without hooks. A thread that
 * waits for a processor keeps it. The turns' lock is held. */
static void look(u64 looks, int asleep, int runs_long) {
    int idle = holder == NOBODY || asleep;
    if (looks_again && parked_count && !following) {
        looks_again--;
        bring_parked_in_line();
        if (holder == NOBODY) hand_on();
        return;
    }
    if (idle && looks >= LOOKS_BEFORE_RESCUE && !waiting_count && parked_count && !following) {
        head->forced += holder != NOBODY;
        look_for_deadlock();
        rescue();
        return;
    }
    if (!looks || holder == NOBODY || !waiting_count || !(asleep || runs_long) || (following && is_due(holder))) return;
    u32 was = holder;
    hand_on();
    if (holder != was) head->forced++;
}

#ifndef SYS_close_range
#define SYS_close_range 436
#endif
#define UNSHARE 2

/* The looker opens files of the system, and the program's next descriptor must not depend on when it does: from Linux
 * 5.9 on it has a separate table of descriptors, empty at first. */
static void leave_descriptors(void) { syscall(SYS_close_range, 0, 0xffffffffl, UNSHARE); }

/* It ends with the program's threads. */
static void *looker(void *none) {
    u64 seen = 0, still = 0, ran = 0;
    u32 who = NOBODY, looks = 0, sleeps = 0;
    inside = 1;
    leave_descriptors();
    while (__atomic_load_n(&living, __ATOMIC_SEQ_CST)) {
        struct timespec pause = {0, 20000000};
        syscall(SYS_nanosleep, &pause, NULL);
        lock_turns();
        int same = progress == seen;
        looks = holder == who && same ? looks + 1 : 0;
        still = same ? still + 1 : 0;
        sleeps = looks && who != NOBODY && !short_wait && is_asleep(who) ? sleeps + 1 : 0;
        if (!looks) ran = ran_ms(holder);
        look(looks, sleeps >= 2, !short_wait && ran_ms(holder) >= ran + LONG_RUN);
        who = holder;
        seen = progress;
        if (following && still * 20 > plan->patience_ms) hangs();
        unlock_turns();
    }
    return none;
}

static int begin_beside(pthread_t *id, void *(*body)(void *)) {
    REAL_OF(pthread_create, "GLIBC_2.34", int, pthread_t *, const pthread_attr_t *, void *(*)(void *), void *);
    return real(id, NULL, body, NULL);
}

static pthread_t looker_id;

/* A program may end with the last of its threads, and then this one ends the process: with the program's descriptors,
 * into which the C library writes what is left. */
static void *watcher(void *none) {
    inside = 1;
    REAL_OF(pthread_join, "GLIBC_2.34", int, pthread_t, void **);
    real(looker_id, NULL);
    return none;
}

/* The first thread that the program makes gets both beside it. The program's own thread makes them, so that where their
 * stacks are is the same in each run. */
static void watch(void) {
    static u8 there;
    if (__atomic_exchange_n(&there, 1, __ATOMIC_SEQ_CST)) return;
    pthread_t id;
    sigset_t all, before;
    __real_sigfillset(&all);
    __real_pthread_sigmask(SIG_SETMASK, &all, &before);
    u8 was = inside;
    inside = 1;
    if (!begin_beside(&looker_id, looker)) begin_beside(&id, watcher);
    inside = was;
    __real_pthread_sigmask(SIG_SETMASK, &before, NULL);
}
