/* What values.c shares. */
#pragma once
#include "recorder.h"
#ifdef OF_VALUES
#define SHARED static
#else
#define SHARED OTHERS
#endif

/* Whether the values of accesses are recorded. */
SHARED u8 keeps_values;

SHARED void settle_value(void);
SHARED void forget_value(void);
SHARED void note_value(u64 place, int kind, const volatile void *at, u64 size);
#undef SHARED
