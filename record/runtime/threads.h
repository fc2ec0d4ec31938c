/* What threads.c shares. */
#pragma once
#include "recorder.h"
#ifdef OF_THREADS
#define SHARED static
#else
#define SHARED OTHERS
#endif

SHARED u32 threads;
SHARED pthread_t ids[MOST_THREADS];
SHARED volatile u8 joinable[MOST_THREADS], came[MOST_THREADS], gone[MOST_THREADS];
SHARED pthread_key_t last_turn;

SHARED void own_stack(void);
SHARED void stranger(void);
SHARED void end_of_thread(void *round);
SHARED int is_detached(const pthread_attr_t *attributes);
SHARED int create(pthread_t *id, const pthread_attr_t *attributes, void *(*body)(void *), void *argument, u64 pc);
SHARED int join(pthread_t id, void **value, u64 pc);
SHARED u8 hold_cancel(void);
SHARED void let_cancel(u8 held);
#undef SHARED
