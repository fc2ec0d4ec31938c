/* What follow.c shares. */
#pragma once
#include "recorder.h"
#include "plan.h"
#ifdef OF_FOLLOW
#define SHARED static
#else
#define SHARED OTHERS
#endif

SHARED volatile int following;
SHARED volatile u32 held_back;
/* What the thread is about to do at its hook, for a debugger there. */
struct about {
    int kind;
    u64 at, size, pc;
};
SHARED __thread struct about about;
struct standing;

SHARED void step_done(u64 k);
SHARED void name_thread(u64 kernel_id, const char *text);
SHARED void note_standing(struct standing *s, u64 pos, u64 at, int kind, u64 pc);
SHARED void about_to(int kind, u64 at, u64 size, u64 pc);
SHARED void count_record(void);
SHARED int is_due(u32 thread);
SHARED int may_take(void);
SHARED int is_planned(u64 pos);
SHARED void arrive(u64 pos);
SHARED void passed_hook(u64 pos, int kind, u64 pc);
SHARED void pass_silently(u64 pc);
SHARED void check_swap(int done, u64 pc);
SHARED u32 choose(void);
SHARED void last_access_done(void);
SHARED void hangs(void);
SHARED int given_up(int tries);
SHARED void moment(void);
SHARED int waits_in_plan(void);
SHARED void world_differs(void);
SHARED struct tick_entry *world_expected(int kind, u64 pc);
SHARED void lend_to(u32 thread);
SHARED void take_back_lent(void);
SHARED void take_again(void);
#undef SHARED
