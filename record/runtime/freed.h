/* What freed.c shares. */
#pragma once
#include "recorder.h"
#ifdef OF_FREED
#define SHARED static
#else
#define SHARED OTHERS
#endif

SHARED void look_at_block(const struct record *r);
#undef SHARED
