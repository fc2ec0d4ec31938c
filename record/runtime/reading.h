/* Reads the records of a raw file, one after another, for the decoder and for the recorder's search for a deadlock. The
 * words may be any. */
#pragma once
#include "format.h"

/* `place` is the number of the first word of the record that was read last. A word that the recorder does not write
 * sets `is_faulty`, and that is the end. */
struct reader {
    const u64 *words;
    u64 next, end, place, tick;
    u16 thread;
    u8 is_faulty;
    struct record now, form[SLOTS];
};

/* Reads the record after a word LONG; NULL if it was not written whole. */
static inline const struct record *read_long(struct reader *r, u64 slot) {
    const struct record *there = (const struct record *)(r->words + r->next);
    if (r->end - r->next < LONG_WORDS - 1) {
        r->next = r->end;
        return 0;
    }
    r->next += LONG_WORDS - 1;
    if (!there->done) return 0;
    r->now = *there;
    if (slot >= FIRST_SLOT && slot < SLOTS) r->form[slot] = r->now;
    if (r->now.pos) r->thread = r->now.thread, r->tick = r->now.pos >> 16;
    if (r->now.done > 1) r->now.kind = VOID;
    return &r->now;
}

/* Reads a record of a slot's form. */
static inline const struct record *read_short(struct reader *r, u64 slot, u64 at) {
    const struct record *form = &r->form[slot];
    if (!form->done) {
        r->is_faulty = 1;
        return 0;
    }
    r->now = *form;
    r->now.done = 1;
    r->now.at = at;
    r->now.thread = r->thread;
    if (form->kind == FRAME) {
        r->now.answer = at, r->now.pos = 0;
    } else {
        r->now.answer = 0, r->now.pos = ++r->tick << 16;
    }
    return &r->now;
}

static inline const struct record *read_taken_back(struct reader *r, u64 slot) {
    if (slot < FIRST_SLOT || slot >= SLOTS || !read_short(r, slot, 0)) {
        r->is_faulty = 1;
        return 0;
    }
    r->now.kind = VOID;
    return &r->now;
}

static inline const struct record *read_other(struct reader *r, u64 word) {
    switch (word % SLOTS) {
    case NOTHING: return 0;
    case LONG: return read_long(r, word / SLOTS);
    case TURN:
        r->thread = (u16)(word / SLOTS);
        if (r->next < r->end) r->tick = r->words[r->next++];
        return 0;
    case VALUE: r->next++; return 0;
    case TAKEN_BACK: return read_taken_back(r, word / SLOTS);
    default: r->is_faulty = 1; return 0;
    }
}

/* The next record, also one that did not happen, whose kind is VOID; NULL at the end. */
static inline const struct record *read_record(struct reader *r) {
    while (r->next < r->end && !r->is_faulty) {
        r->place = r->next++;
        u64 word = r->words[r->place], kind = word % SLOTS;
        const struct record *found = kind < FIRST_SLOT ? read_other(r, word) : read_short(r, kind, word / SLOTS);
        if (found) return found;
    }
    return 0;
}
