/* What streams.c shares. */
#pragma once
#include "recorder.h"
#include "callers.h"
#include "events.h"
#ifdef OF_STREAMS
#define SHARED static
#else
#define SHARED OTHERS
#endif

#ifdef __clang__
/* With -O stdio.h declares getchar, putchar and others inline. The definitions here are not inline. */
#pragma clang diagnostic ignored "-Wstatic-in-inline"
#endif
#define WRITES_STREAM(name, s, given, passed_on) \
    int name given { \
        static int(*real) given; \
        if (!real) real = (int(*) given)next(#name, NULL); \
        sends_stream(s, PC); \
        int answer = real passed_on; \
        sent_stream(s); \
        return answer; \
    }
#define READS_STREAM(type, name, s, given, passed_on) \
    type name given { \
        static type(*real) given; \
        if (!real) real = (type(*) given)next(#name, NULL); \
        awaits_stream(s, 1, NO_END); \
        type answer = real passed_on; \
        received_stream(s, PC); \
        return answer; \
    }
enum { NO_END = -1, NO_SPACE = -2 };

SHARED void sends_stream(FILE *s, u64 pc);
SHARED void sent_stream(FILE *s);
SHARED void awaits_stream(FILE *s, size_t bytes, int end);
SHARED void received_stream(FILE *s, u64 pc);
#undef SHARED
