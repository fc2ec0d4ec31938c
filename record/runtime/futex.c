/* Waits that a library makes by `syscall`: those of std::atomic, std::latch and std::barrier of C++20, and of Rust.
 * The recorder keeps the waiters. A waiter has to look again at its place anyway, so all that wait at a place are
 * woken. Interposes syscall. Must not call `syscall`, which is this function here: raw_syscall is the kernel's. */
#include "accesses.h"
#include "atomics.h"
#include "callers.h"
#include "channels.h"
#include "descriptors.h"
#include "events.h"
#include "processes.h"
#include "turns.h"

/* This file defines the function that recorder.h replaces elsewhere. */
#undef syscall

/* How often a waiter may be sent back to wait when parked threads look again: some 10 s. A library without hooks may
 * have woken it without a change of the value. */
#define MOST_LOOKS 100

static long wait_at(u32 *at, u32 value, u64 pc) {
    maybe_give();
    if (__atomic_load_n(at, SC) != value) {
        put_answer(ANSWER, (u64)at, EAGAIN, pc);
        errno = EAGAIN;
        return -1;
    }
    park(at, NULL, 0);
    for (int k = 0; rescuing && k < MOST_LOOKS && __atomic_load_n(at, SC) == value; k++) park(at, NULL, 0);
    put_answer(ANSWER, (u64)at, 0, pc);
    return 0;
}

long syscall(long number, ...) {
    va_list words;
    va_start(words, number);
    long a = va_arg(words, long), b = va_arg(words, long), c = va_arg(words, long);
    long d = va_arg(words, long), e = va_arg(words, long), f = va_arg(words, long);
    va_end(words);
    if (!IDLE && number == SYS_read) return read_at((int)a, (void *)b, (size_t)c, PC);
    if (!IDLE && number == SYS_write) return write_at((int)a, (const void *)b, (size_t)c, PC);
    if (!IDLE && number == SYS_close) return close((int)a);
    int what = (int)b & FUTEX_CMD_MASK, is_private = (int)b & FUTEX_PRIVATE_FLAG;
    if (makes_process(number)) return note_process(raw_syscall(number, a, b, c, d, e, f));
    if (IDLE || number != SYS_futex) return raw_syscall(number, a, b, c, d, e, f);
    if (what == FUTEX_WAIT || what == FUTEX_WAIT_BITSET) {
        if (is_private && !d && !has_forked) return wait_at((u32 *)a, (u32)c, PC);
        return OUTSIDE(raw_syscall(number, a, b, c, d, e, f));
    }
    keep_turn();
    /* Those that are moved to another place are woken too. */
    unpark((void *)a);
    if (what == FUTEX_WAKE_OP) unpark((void *)e);
    return raw_syscall(number, a, b, c, d, e, f);
}

#define syscall raw_syscall
