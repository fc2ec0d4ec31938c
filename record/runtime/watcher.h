/* What watcher.c shares. */
#pragma once
#include "recorder.h"
#ifdef OF_WATCHER
#define SHARED static
#else
#define SHARED OTHERS
#endif

SHARED void watch(void);
#undef SHARED
