/* What accesses.c shares. */
#pragma once
#include "recorder.h"
#ifdef OF_ACCESSES
#define SHARED static
#else
#define SHARED OTHERS
#endif

extern void *__real_memcpy(void *, const void *, size_t), *__real_memmove(void *, const void *, size_t),
    *__real_memset(void *, int, size_t);

SHARED const u32 young_rates[3];
SHARED u32 young_in;

SHARED void see_place(u64 pc);
SHARED void maybe_give(void);
SHARED void look_for_waiting(u64 at, u64 pc);
SHARED void accessed(int kind, const volatile void *at, u64 size, u64 pc);
SHARED void access_(int kind, const volatile void *at, u64 size, u64 pc);
SHARED void comes_to_call(void);
SHARED void wrote(const volatile void *at, u64 size, u64 pc);
SHARED void went_over(const volatile void *at, u64 size, u64 pc);
SHARED void copied(void *to, const void *from, size_t n, u64 pc);
#undef SHARED
