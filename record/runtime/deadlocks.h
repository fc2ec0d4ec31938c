/* What deadlocks.c shares. */
#pragma once
#include "recorder.h"
#ifdef OF_DEADLOCKS
#define SHARED static
#else
#define SHARED OTHERS
#endif

enum { TO_WRITE, TO_READ };

SHARED struct record wanted[MOST_THREADS];

SHARED int park_for_lock(int reads, const volatile void *at, const struct timespec *until, clockid_t clock, u64 pc);
SHARED void find_holders(const u32 *threads, u32 count, u64 *holders);
SHARED void look_for_deadlock(void);
#undef SHARED
