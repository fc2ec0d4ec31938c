/* What signs.c shares. */
#pragma once
#include "recorder.h"
#ifdef OF_SIGNS
#define SHARED static
#else
#define SHARED OTHERS
#endif

SHARED void got_signal(int number, u64 pc);
#undef SHARED
