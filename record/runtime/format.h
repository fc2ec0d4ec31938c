/* The raw file that the recorder writes as the program runs, for the recorder and for the decoder: numbers as this
 * machine has them. A head, the nodes of the calls at stacks_at, the records as words at words_at. */
#pragma once
#include <stdint.h>

typedef uint8_t u8;
typedef uint16_t u16;
typedef uint32_t u32;
typedef uint64_t u64;

/* Kinds of records. */
/* clang-format off */
enum {
    VOID, READ, WRITE, ACQUIRE, RELEASE, FORK, JOIN, ALLOCATED, FREED, STACK, ATOMIC_READ, ATOMIC_WRITE, ATOMIC_UPDATE,
    PASS, WRITER, RESIZED, ANSWER, TRIED, READER_IN, READER_OUT, FENCE,
    ARRIVED, WENT_ON, FRAME, REQUEST
};
/* clang-format on */

/* What `at` of a record is. */
enum { OF_MEMORY, OF_DESCRIPTOR, OF_CHANNEL, OF_CHANCE, OF_TEAM };

/* What a PASS does to a semaphore or channel, as its `order`. A WRITE that is MADE makes a semaphore whose value is
 * `answer`. */
enum { NO_WAY, WAITED, POSTED, MADE };

/* Bits of a lock's `order`. BY_LIBRARY: a library without hooks took or released it, so the accesses in its sections are
 * unseen. BY_TRY: the call that took it waits for nobody, or not for ever. A wait at a semaphore has BY_TRY as its
 * `answer`. */
enum { BY_PROGRAM, BY_LIBRARY, BY_TRY };

/* A record. `at` is an address, or a thread's number for FORK and JOIN, or what `of` says. `pc` is the place in the
 * code, `stack` the number of the node of the functions that were entered. `pos` is the thread's clock: tick << 16 |
 * sub. `answer` is what came of a call, `order` the memory order of an atomic or the way of a PASS. The `size` of TRIED
 * is 1 where a reader tried. STACK has the pointer of the thread's own variables as `answer`. FRAME is memory of an
 * activation of the function at `pc`, up to the frame's end; `answer` is where the frame began below, and `order` is 1
 * if an earlier FRAME has a part of it. It has no clock. A FREED with OF_FRAME as its `order` is the end of an activation
 * whose memory another thread used: from `at` on, `size` bytes. Its `sub` is FRAME_ENDS and how deep the call is. `done` is 1
 * once the record is whole, and 2 if it did not happen after all. */
enum { OF_BLOCK, OF_FRAME };
#define FRAME_ENDS 0x8000

struct record {
    u64 at, pc, pos, answer;
    u32 size, stack;
    u16 thread;
    u8 kind, done, order, of;
    u16 unused;
};

/* The records are a stream of words. The low 16 bits of a word say what it is, and the others are its content.
 * NOTHING is a word that was not written. After LONG there is a whole record in the next words; unless the content is
 * 0, it is the slot whose form the record is from now on. TURN has a thread as its content, and the next word says how
 * many hooks that thread has passed. TAKEN_BACK is a record that did not happen after all; its content is its slot.
 * VALUE is what an access read or wrote, which is the next word. Its content is twice the number of the record's word,
 * and one more for a write; 0 if the value was not written whole.
 *
 * Any other number, from FIRST_SLOT on, is a slot: a record of its form, whose `at` is the content. Its thread is that
 * of the last TURN, or of the last long record with a clock. It is the thread's next tick. Its `answer` is 0. But a
 * FRAME is no tick, and its `answer` is its `at`. */
enum { NOTHING, LONG, TURN, TAKEN_BACK, VALUE };
#define FIRST_SLOT 16
#define SLOTS 65536
#define LONG_WORDS 7
#define TURN_WORDS 2
#define VALUE_WORDS 2

/* A function that was entered: a place in it, where it was called, and the node of its caller. `same` is the node that
 * represents it: if a function calls itself, the one above it that has the same two places. */
struct node {
    u64 body, site;
    u32 parent, same;
};

#define MAGIC 0x3343455242524352ull
#define MOST_MODULES 128
#define MODULE_PATH 240

struct module {
    u64 base, end;
    char path[MODULE_PATH];
};

/* The head of the raw file. It is written as the program runs, so it is whole however the program ends. `room` is how
 * many records there may be, `kept` how many there are, in `used` words, and `lost` how many had no room. If the disk
 * has no more room, `full` is set. `units` are the compiled parts with hooks. `process` is the one that is recorded.
 * `forks` are child processes, `programs` other programs that were started, and `unrecorded` are records of threads after
 * the last one that is recorded.
 *
 * If the program hangs in a deadlock, `deadlock` is how many threads are in it. Its requests are the last records, each
 * before the one of the thread that holds its lock. */
struct head {
    u64 magic, room, used, stack_room, stacks, stacks_at, words_at, turns, forced, strangers, modules, units, full,
        kept, lost, forks, programs, unrecorded, deadlock, process;
    struct module module[MOST_MODULES];
};
