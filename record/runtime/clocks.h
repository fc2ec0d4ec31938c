/* What clocks.c shares. */
#pragma once
#include "recorder.h"
#ifdef OF_CLOCKS
#define SHARED static
#else
#define SHARED OTHERS
#endif

SHARED int is_of_program(u64 from);
#undef SHARED
