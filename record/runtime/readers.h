/* What readers.c shares. */
#pragma once
#include "recorder.h"
#ifdef OF_READERS
#define SHARED static
#else
#define SHARED OTHERS
#endif

SHARED void put_taken(int how, int kind, int answer, void *at, u64 pc);
SHARED int is_own(pthread_rwlock_t *m);
#undef SHARED
