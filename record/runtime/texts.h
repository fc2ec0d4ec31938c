/* What texts.c shares. */
#pragma once
#include "recorder.h"
#include "accesses.h"
#include "callers.h"
#ifdef OF_TEXTS
#define SHARED static
#else
#define SHARED OTHERS
#endif

extern size_t __real_strlen(const char *), __real_strnlen(const char *, size_t);
extern int __real_memcmp(const void *, const void *, size_t);
extern void *__real_memchr(const void *, int, size_t);
extern char *__real_strchr(const char *, int), *__real_strrchr(const char *, int);
#define READS(at, n) (IDLE ? (void)0 : access_(READ, (at), (n), PC))
#define WRITES(at, n) (IDLE ? (void)0 : access_(WRITE, (at), (n), PC))

SHARED size_t read_of(const char *s, size_t most);
SHARED size_t searched(const void *from, const void *found_at, size_t beyond, size_t all);
SHARED void read_texts(const char *f, va_list given, u64 pc);
#undef SHARED
