/* What callers.c shares. */
#pragma once
#include "recorder.h"
#ifdef OF_CALLERS
#define SHARED static
#else
#define SHARED OTHERS
#endif

struct range {
    u64 start, size;
};
#define LOCK_PC (by_library = !IDLE && is_foreign((u64)__builtin_return_address(0)), PC)
/* A call of a library that the recorder makes for the program, and how many calls the hooks saw begin before. What the
 * library calls then is called at this place. */
struct library_call {
    u64 pc;
    u32 depth;
};
#define IN_LIBRARY(call) \
    ({ \
        __attribute__((cleanup(end_library_call), unused)) struct library_call before_ = library_call; \
        library_call = (struct library_call){PC, depth}; \
        (call); \
    })

SHARED struct range c_library;
SHARED __thread u8 by_library;
SHARED __thread struct library_call library_call;

SHARED struct range part_of(const struct dl_phdr_info *info, u64 pc);
SHARED int is_hooked(u64 pc);
SHARED int had_hooks(u64 start, u64 end);
SHARED int note_c_library(struct dl_phdr_info *info, size_t size, void *none);
SHARED int note_trusted(struct dl_phdr_info *info, size_t size, void *none);
SHARED int is_foreign(u64 pc);
SHARED void note_hooked(u64 pc);
SHARED void note_program(u64 pc);
SHARED void end_library_call(struct library_call *before);
SHARED u64 main_start, main_size;
SHARED u64 caller_in_program(u64 pc);
SHARED u64 site_of_call(u64 site);

/* Where the program called what led here. */
static inline u64 in_program(u64 pc) { return pc - main_start < main_size || IDLE ? pc : caller_in_program(pc); }
#define PC in_program((u64)__builtin_return_address(0))
#undef SHARED
