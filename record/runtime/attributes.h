/* What attributes.c shares. */
#pragma once
#include "recorder.h"
#ifdef OF_ATTRIBUTES
#define SHARED static
#else
#define SHARED OTHERS
#endif

SHARED void reads_attributes(const pthread_attr_t *a, u64 pc);
#undef SHARED

/* FILLS makes a wrapper of each; these are the library's. */
WEAKLY int __real_pthread_key_create(pthread_key_t *key, void (*end)(void *));
WEAKLY int __real_pthread_attr_getdetachstate(const pthread_attr_t *a, int *to);
WEAKLY int __real_pthread_setcancelstate(int state, int *before);
