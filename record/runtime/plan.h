/* What plan.c shares. */
#pragma once
#include "recorder.h"
#include "events.h"
#include "follow.h"
#include "threads.h"
#ifdef OF_PLAN
#define SHARED static
#else
#define SHARED OTHERS
#endif

enum { EVENT, STAND, LAST, WAIT }; /* types of steps */
enum { NOT_FOLLOWING, FOLLOWING, STANDS, DEPARTED, DONE };
enum { OTHER_CODE = 1, MISSED, WOULD_WAIT, HANGS, ENDED, OTHER_OUTCOME, OTHER_WORLD, NO_WAIT = 9, NOT_HELD };
/* A step of the plan: the thread and its clock, the event, the thread's next step, and which steps of others have to
 * be done before. */
struct step {
    u32 thread, type;
    u64 pos, event, next, needs, needs_count, done, unused;
};
/* Where the ticks of a thread are, and how many. */
struct known {
    u64 first, count;
};
/* A tick of the recording: pc << 16, 128 where an event of the trace is of it, and the kind; then what the record
 * says. */
struct tick_entry {
    u64 code, at, answer;
};
/* clang-format off */
#define KIND_OF(code) ((int)((code) & 127))
#define IS_EVENT(code) ((code) & 128)
/* clang-format on */
#define PLACE_OF(code) ((code) >> 16)
struct frame {
    u64 body, site;
};
#define MOST_FRAMES 64
#define MOST_REQUESTS 8
#define MOST_TOLD 64
/* A thread right before its access, or where it waits for a lock. */
struct standing {
    u64 thread, pos, at, size, kind, pc, kernel_id, value[2], value_there, after[2], after_there, frames;
    struct frame frame[MOST_FRAMES];
};
/* An access of a block that was freed, or a second free: by which thread the block was freed, and where. */
#define MOST_USES 16
struct use {
    u64 kind, thread, size, freed_by, pc, freed_at;
};
struct plan {
    /* what record/follow says; the thread that did the last access goes on for `alone` accesses */
    u64 magic, threads, steps, forks, ticks, frees, held_back, alone, patience_ms;
    u64 threads_at, forks_at, steps_at, ticks_at, needs_at, first_at, modules_at, modules;
    /* what comes back */
    u64 state, step, why, thread, pos, kind, pc, expected, spurious, passed_ticks, last_pc, out_of_order, refused_tries,
        uses;
    struct standing standing[2];
    u64 at_tick[MOST_TOLD];
    struct use use[MOST_USES];
    /* record/follow says how many requests a deadlock has, and whether the program hangs in it. Back come the threads
     * that wait, each with one of them that holds its lock. */
    u64 requests, hangs;
    struct standing request[MOST_REQUESTS];
    u64 holder[MOST_REQUESTS];
};

SHARED struct plan *plan;
SHARED struct known *known;
SHARED struct step *steps;
SHARED u64 *needs, *next_step;
SHARED struct tick_entry *ticks;
SHARED volatile u64 at_step;
SHARED volatile u64 ticks_of[MOST_THREADS];

SHARED u64 as_recorded(u64 pc);
SHARED void look_for_shift(void);
SHARED void start_following(const char *name);
SHARED struct tick_entry *entry_at(u64 t);
SHARED u64 expected_at(u64 t);
SHARED u32 planned_child(void);
SHARED void depart(u64 why, u64 pos, u64 kind, u64 pc, u64 expected);
#undef SHARED
