/* What atomics.c shares. */
#pragma once
#include "recorder.h"
#ifdef OF_ATOMICS
#define SHARED static
#else
#define SHARED OTHERS
#endif

#define SC __ATOMIC_SEQ_CST

SHARED u64 atomic_(int kind, const volatile void *at, u64 size, int order, u64 pc);
#undef SHARED
