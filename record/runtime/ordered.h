/* What ordered.c shares. */
#pragma once
#include "recorder.h"
#include "events.h"
#include "openmp.h"
#include "threads.h"
#ifdef OF_ORDERED
#define SHARED static
#else
#define SHARED OTHERS
#endif

/* The most loops in one another of one such loop, and the most iterations, of which a bit each says that they came. */
#define MOST_DIMENSIONS 16
/* `share` is the meeting of the team that shares the loop out, and `number` is the loop's number in a trace. */
struct doacross {
    u64 share, number;
    u32 dimensions;
    u64 size[MOST_DIMENSIONS];
    u8 *came;
    struct doacross *next;
};

SHARED void end_loops(struct region *r);
#undef SHARED
