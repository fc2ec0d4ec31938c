/* What words.c shares. */
#pragma once
#include "recorder.h"
#ifdef OF_WORDS
#define SHARED static
#else
#define SHARED OTHERS
#endif

/* How many words get room on the disk at once. */
#define PIECE (1 << 18)

/* What records of a slot have in common. */
struct form {
    u64 code, rest;
};
/* No slot has a form. */
#define NO_FORM (NO_PLACE - 1)

SHARED u64 *words;
SHARED int raw_file;
SHARED volatile u8 is_full;

SHARED int has_room(u64 at, u64 size);
SHARED int more_words(u64 end);
SHARED struct record *long_at(u64 place);
SHARED int fits_word(struct record r);
SHARED u64 put_short(u64 content, struct form f, u64 first, u32 thread, u64 before, u64 after);
SHARED u64 put_first_access(u64 at, struct form f, u32 thread, u64 now);
SHARED u64 first_slot_of(struct form f);
SHARED u64 put_word(struct record r, u64 before, u64 after);
SHARED u64 put_long(const struct record *r, u64 slot);
SHARED void put_value(u64 place, int is_write, u64 value);
SHARED void take_back(u64 place);
#undef SHARED
