/* What heap.c shares. */
#pragma once
#include "recorder.h"
#ifdef OF_HEAP
#define SHARED static
#else
#define SHARED OTHERS
#endif

SHARED __thread u8 is_counted;

SHARED void *got(void *block, size_t n, u64 pc);
#undef SHARED
