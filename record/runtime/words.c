/* The machine words of the raw file: most are a record: an address and the slot of the record's form. Interposes
 * nothing. Runs in the turn of its thread. But a turn may be taken by force, and a signal's handler may come between
 * any two lines: so words are taken by compare and exchange. Must not rely on what it read before it took them. */
#define OF_WORDS
#include "words.h"

/* The machine words, in a file that is mapped, so it is whole however the program ends; and how many the disk has room
 * for: a mapped page that the disk has no room for ends the program. */
static u64 *words;
static u64 words_there;
static int raw_file = -1;

/* Which file it is: a program that closes all descriptors may have another one at this number then. */
static dev_t raw_device;
static ino_t raw_inode;

static int has_room(u64 at, u64 size) {
    struct stat about;
    if (fstat(raw_file, &about)) return 0;
    if (!raw_inode) raw_device = about.st_dev, raw_inode = about.st_ino;
    if (about.st_dev != raw_device || about.st_ino != raw_inode) return 0;
    return posix_fallocate(raw_file, (off_t)at, (off_t)size) == 0;
}

/* Whether there is no room for more records. */
static volatile u8 is_full;

/* The slots that a form may have: as many side by side, so that forms seldom push each other out. */
#define WAYS 4
static struct form forms[SLOTS];
/* A form is written, so no slot counts. */
static volatile u8 are_forms_in_work;
/* What the next word continues: a thread, its last tick, and the number of the next word. If other words came between,
 * it continues nothing. */
static volatile u64 last_put;
#define STATE(thread, tick, end) ((u64)(thread) << 50 | ((tick)&0x3ffff) << 32 | (u32)(end))
_Static_assert(MOST_THREADS <= 1 << 14, "a thread has 14 bits of a state");

/* The memory of words that are long past is given back, since the file has them: a long run takes no more of it. */
static void forget_words(void) {
    const u64 round = 65536;
    if (words_there < 4 * PIECE) return;
    u64 start = (u64)&words[words_there - 4 * PIECE], end = start + PIECE * sizeof *words;
    start = (start + round - 1) / round * round;
    madvise((void *)start, end / round * round - start, MADV_DONTNEED);
}

/* Whether a tenth of the file system is free. The first FIRST_WORDS words, 200 MB, may take what there is. */
#define FIRST_WORDS (100 * PIECE)
static int leaves_a_tenth(void) {
    struct statfs about;
    if (words_there < FIRST_WORDS || fstatfs(raw_file, &about)) return 1;
    return about.f_bavail >= about.f_blocks / 10;
}

static __attribute__((noinline)) int more_words(u64 end) {
    if (head->full) return 0;
    u8 was = inside;
    inside = 1;
    if (leaves_a_tenth() && has_room(head->words_at + words_there * sizeof *words, PIECE * sizeof *words))
        words_there += PIECE, forget_words();
    else head->full = 1;
    inside = was;
    return end <= words_there;
}

static inline int has_words(u64 at, u64 count) { return at + count <= words_there || more_words(at + count); }

/* Takes `count` words, if the next one is still number `at`. */
static inline int take_words(u64 at, u64 count) {
    return __atomic_compare_exchange_n(&head->used, &at, at + count, 0, __ATOMIC_ACQ_REL, __ATOMIC_RELAXED);
}

static __attribute__((noinline)) u64 no_place(void) {
    is_full = 1;
    head->lost++;
    return NO_PLACE;
}

static struct record *long_at(u64 place) { return (struct record *)&words[place + 1]; }

/* Says whose the next words are, in words that are taken; the number of the word after them. */
static u64 put_turn(u64 at, u64 thread, u64 tick_before) {
    __atomic_store_n(&words[at], thread * SLOTS + TURN, __ATOMIC_RELEASE);
    __atomic_store_n(&words[at + 1], tick_before, __ATOMIC_RELEASE);
    return at + TURN_WORDS;
}

/* Writes a whole record, the first one of a slot unless that is 0; its place. */
static __attribute__((noinline)) u64 put_long(const struct record *r, u64 slot) {
    u64 at;
    do {
        at = __atomic_load_n(&head->used, __ATOMIC_ACQUIRE);
        if (head->kept >= head->room || !has_words(at, LONG_WORDS)) return no_place();
    } while (!take_words(at, LONG_WORDS));
    __atomic_store_n(&words[at], slot * SLOTS + LONG, __ATOMIC_RELEASE);
    struct record *to = long_at(at);
    *to = *r;
    __atomic_store_n(&to->done, 1, __ATOMIC_RELEASE);
    if (r->pos) last_put = STATE(r->thread, r->pos >> 16, at + LONG_WORDS);
    head->kept++;
    return at;
}

/* Which of the slots of a form has it; WAYS if none does. */
static inline u32 way_of(const struct form *first, struct form f) {
    u32 k = 0;
    while (k < WAYS && (first[k].code != f.code || first[k].rest != f.rest)) k++;
    return k;
}

/* Writes a record and its form. A slot has its form before the record is in the file: who sees it in between sees that
 * forms are in work, or does not get the record. */
static __attribute__((noinline)) u64 put_form(const struct record *r, struct form f, u64 first) {
    static u32 pushed_out;
    if (__atomic_exchange_n(&are_forms_in_work, 1, __ATOMIC_ACQ_REL)) return put_long(r, 0);
    u64 slot = first + way_of(&forms[first], (struct form){0, 0});
    if (slot == first + WAYS) slot = first + ++pushed_out % WAYS;
    forms[slot] = f;
    __atomic_thread_fence(__ATOMIC_RELEASE);
    u64 place = put_long(r, slot);
    if (place == NO_PLACE) forms[slot] = (struct form){0, 0};
    __atomic_store_n(&are_forms_in_work, 0, __ATOMIC_RELEASE);
    return place;
}

/* The first of the slots that a form may have. */
static inline u64 first_slot_of(struct form f) {
    u64 hash = (f.code ^ f.rest * 0xff51afd7ed558ccdull) * 0x9e3779b97f4a7c15ull;
    u64 first = hash >> 48 & (SLOTS - WAYS);
    return first < FIRST_SLOT ? first + FIRST_SLOT : first;
}

/* Writes a record of a form as a word; NO_FORM if no slot has its form. `before` is the tick of its thread before it,
 * and `after` the one after it. */
static inline __attribute__((always_inline)) u64 put_short(u64 content, struct form f, u64 first, u32 thread,
                                                           u64 before, u64 after) {
    for (;;) {
        u64 at = __atomic_load_n(&head->used, __ATOMIC_ACQUIRE);
        u32 way = way_of(&forms[first], f);
        __atomic_thread_fence(__ATOMIC_ACQUIRE);
        if (way == WAYS || are_forms_in_work) return NO_FORM;
        u64 count = last_put == STATE(thread, before, at) ? 1 : TURN_WORDS + 1;
        if (head->kept >= head->room || !has_words(at, count)) return no_place();
        if (!take_words(at, count)) continue;
        if (count > 1) at = put_turn(at, thread, before);
        __atomic_store_n(&words[at], content * SLOTS + first + way, __ATOMIC_RELEASE);
        last_put = STATE(thread, after, at + 1);
        head->kept++;
        return at;
    }
}

/* Writes a record as a word, if a slot has its form. Inlined, so that the record is in registers. */
static inline __attribute__((always_inline)) u64 put_word(const struct record r, u64 before, u64 after) {
    struct form f = {r.pc << 16 | (u64)r.of << 13 | (u64)r.kind << 8 | r.order, (u64)r.stack << 32 | r.size};
    u64 first = first_slot_of(f), place = put_short(r.at, f, first, r.thread, before, after);
    if (place != NO_FORM) return place;
    struct record whole = r;
    return put_form(&whole, f, first);
}

/* The first access of its form, in the tick that its thread came to. */
static __attribute__((noinline)) u64 put_first_access(u64 at, struct form f, u32 thread, u64 now) {
    struct record r = {.at = at, .pc = f.code >> 16, .pos = CLOCK(now, 0), .size = (u32)f.rest};
    r.stack = (u32)(f.rest >> 32), r.thread = (u16)thread, r.kind = f.code >> 8 & 31;
    return put_form(&r, f, first_slot_of(f));
}

/* Whether a word can have what a record has. */
static inline int fits_word(const struct record r) {
    return r.at >> 48 == 0 && r.pc >> 48 == 0 && r.kind < 32 && r.of < 8;
}

/* What the record at a place read or wrote. The next record of this thread continues what the last one did. */
static void put_value(u64 place, int is_write, u64 value) {
    u64 at, state;
    do {
        at = __atomic_load_n(&head->used, __ATOMIC_ACQUIRE);
        state = last_put;
        if (is_full || !has_words(at, VALUE_WORDS)) return;
    } while (!take_words(at, VALUE_WORDS));
    __atomic_store_n(&words[at], VALUE, __ATOMIC_RELEASE);
    __atomic_store_n(&words[at + 1], value, __ATOMIC_RELEASE);
    __atomic_store_n(&words[at], (place << 1 | (u64)is_write) * SLOTS + VALUE, __ATOMIC_RELEASE);
    if (state == STATE(me, tick, at)) last_put = STATE(me, tick, at + VALUE_WORDS);
}

/* What was recorded before a call that was then refused did not happen. */
static void take_back(u64 place) {
    if (place == NO_PLACE) return;
    u64 kind = words[place] % SLOTS;
    if (kind == LONG) long_at(place)->done = 2;
    else words[place] = kind * SLOTS + TAKEN_BACK;
}
