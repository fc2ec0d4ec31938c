/* What meetings.c shares. */
#pragma once
#include "recorder.h"
#include "events.h"
#ifdef OF_MEETINGS
#define SHARED static
#else
#define SHARED OTHERS
#endif

/* What threads of this process meet at: a barrier, or what is made once. */
struct meeting {
    const void *at;
    /* `round` counts the meetings at a barrier, or how often what is done once failed. */
    u32 inside, round, who;
    struct meeting *next;
};

SHARED void meet(int kind, int of, u64 at, u64 round, u64 pc);
SHARED struct meeting *meeting_of(const void *at);
SHARED void begin_once(struct meeting *m);
SHARED void wait_for_once(struct meeting *m);
SHARED int do_once(pthread_once_t *o, void (*routine)(void), u64 pc);
#undef SHARED
