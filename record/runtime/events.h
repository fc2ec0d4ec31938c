/* What events.c shares. */
#pragma once
#include "recorder.h"
#ifdef OF_EVENTS
#define SHARED static
#else
#define SHARED OTHERS
#endif

/* The calls that the hooks saw begin, and the numbers of their nodes, of which the first `known_nodes` are found.
 * Deeper calls than these have the node of the last. They lie outside of the thread's stack, which may be small. Of a
 * frame, `base` is the frame pointer, `end` its end and `from` where it was recorded from; 0 if that is not known.
 * `is_shared` says whether another thread used it. */
#define CALLS 16384
struct call {
    u64 site, body, stack, return_to, base, end, from;
    u32 node, is_shared;
};

SHARED __thread struct call *calls;
SHARED struct node *all_nodes;
SHARED u32 *node_table;
SHARED u64 node_table_size;

SHARED int more_nodes(void);
SHARED u32 stack_now(void);
SHARED u64 put_inline(struct record r, int stays_open);
SHARED u64 put_plain(int kind, u64 at, u64 size, u64 pc);
SHARED u64 put_record(struct record r);
SHARED u64 put_open_record(struct record r);
SHARED struct record record_of(int kind, u64 at, u64 size, u64 pc);
SHARED u64 put(int kind, u64 at, u64 size, u64 pc);
SHARED u64 put_of(int of, int kind, u64 at, u64 pc);
SHARED u64 put_answer(int kind, u64 at, u64 answer, u64 pc);
SHARED void end_calls(void);
SHARED void *found(const char *name, const char *version);
SHARED void *next(const char *name, const char *version);
SHARED void note_modules(void);

#define REAL(name, type, ...) \
    static type (*real)(__VA_ARGS__); \
    if (!real) real = (type(*)(__VA_ARGS__))next(#name, NULL)
#define REAL_OF(name, version, type, ...) \
    static type (*real)(__VA_ARGS__); \
    if (!real) real = (type(*)(__VA_ARGS__))next(#name, version)
#undef SHARED
