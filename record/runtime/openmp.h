/* What openmp.c shares. */
#pragma once
#include "recorder.h"
#include "callers.h"
#include "events.h"
#include "ordered.h"
#ifdef OF_OPENMP
#define SHARED static
#else
#define SHARED OTHERS
#endif

/* Who comes back from the library waits for the others of the team: one that has the token brings all in line, in the
 * order of their numbers, so that nothing hangs on whom the system wakes first. */
struct comer {
    u32 thread;
    struct comer *next;
};
struct region {
    /* The library looks here for what the tasks of a region sum up, as in the program's own data. */
    void *sums;
    void (*body)(void *);
    void *data;
    u64 team, pc;
    u32 master, size, in;
    /* The last meeting for which a thread makes what it will give to all. */
    u64 made;
    /* Its loops whose iterations wait for others: ordered.c. */
    struct doacross *loops;
    volatile u32 back;
    struct comer *comers;
    /* In a team with tasks the library runs these while it waits: how many no thread has begun, and how many threads wait
     * without one. */
    volatile u8 has_tasks;
    volatile u32 ready, idle;
    /* A team that began while a plan was followed: the library alone lets it go on, in any order. */
    u8 is_planned;
};
#define LAST_ROUND 0xffffffff
#define SHARES(type, name, begins, given, passed_on) \
    type name given { \
        static type(*real) given; \
        if (!real) real = (type(*) given)next(#name, NULL); \
        if (!IDLE) { \
            if (begins) my_share = my_round++; \
            take_share(PC); \
        } \
        return real passed_on; \
    }
typedef unsigned long long ull;

SHARED u32 teams;
SHARED __thread struct region *my_region;
SHARED __thread u64 my_team, my_round, my_share;
SHARED __thread struct doacross *my_loop;

SHARED void meet_team(int kind, u64 team, u64 round, u64 pc);
SHARED u32 size_of_team(void);
SHARED void become_idle(struct region *r);
SHARED void end_idle(void);
SHARED int is_of_openmp(void *(*body)(void *));
SHARED int comes_to_barrier(u64 pc);
SHARED void leaves_barrier(int was_last, u64 pc);
SHARED void take_share(u64 pc);
#undef SHARED
