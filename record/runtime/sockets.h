/* What sockets.c shares. */
#pragma once
#include "recorder.h"
#ifdef OF_SOCKETS
#define SHARED static
#else
#define SHARED OTHERS
#endif

SHARED int is_stream(int f);
SHARED int is_accepted(int f, u64 pc);
#undef SHARED
