/* What processes.c shares. */
#pragma once
#include "recorder.h"
#ifdef OF_PROCESSES
#define SHARED static
#else
#define SHARED OTHERS
#endif

SHARED u8 is_child;

SHARED int makes_process(long number);
SHARED long note_process(long answer);
#undef SHARED
