/* What frames.c shares. */
#pragma once
#include "recorder.h"
#ifdef OF_FRAMES
#define SHARED static
#else
#define SHARED OTHERS
#endif

SHARED void forget_stack(void);
SHARED void note_stack(void);
SHARED int is_of_frames(int kind, int of);
SHARED void note_frame(u64 at);
SHARED void note_use_of_stack(void);
SHARED int is_noted_end(void);
SHARED void note_end(u64 pc);
#undef SHARED
