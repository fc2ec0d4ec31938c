/* What wide.c shares. */
#pragma once
#include "recorder.h"
#ifdef OF_WIDE
#define SHARED static
#else
#define SHARED OTHERS
#endif

SHARED size_t with_end(size_t count, size_t most);
#undef SHARED
