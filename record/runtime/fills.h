/* What fills.c shares. */
#pragma once
#include "recorder.h"
#include "accesses.h"
#include "callers.h"
#include "texts.h"

/* `size` is how many bytes the call wrote at `at`; `answer` is what it gave back. */
#define FILLS(type, name, given, passed_on, before, at, size) \
    WEAKLY type __real_##name given; \
    type __wrap_##name given { \
        before; \
        comes_to_call(); \
        type answer = __real_##name passed_on; \
        wrote((at), (size), PC); \
        return answer; \
    }
#define TEXT_AT(at) (is_there(at) ? __real_strlen((const char *)(at)) + 1 : 0)
