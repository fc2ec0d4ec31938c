/* What requests.c shares. */
#pragma once
#include "recorder.h"
#ifdef OF_REQUESTS
#define SHARED static
#else
#define SHARED OTHERS
#endif

SHARED void wait_in_plan(const struct record *request);
SHARED void did_not_wait(u64 pos);
#undef SHARED
