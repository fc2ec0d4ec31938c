/* What turns.c shares. */
#pragma once
#include "recorder.h"
#ifdef OF_TURNS
#define SHARED static
#else
#define SHARED OTHERS
#endif

/* What `inside` has while a thread passes the turn on or waits for it, and while it has the turns' lock. A signal that
 * comes then is handled when the thread waits or is done: signals.c. */
#define IN_TURNS 2
#define HAS_LOCK 4
/* What a thread has again after its work on turns. */
struct before {
    int error;
    u8 inside, holds_cancel;
};
/* After this many looks of the watcher parked threads look again: a handler that came while its thread was in the
 * recorder may have posted what they wait for, or the kernel let go of a mutex. */
#define LOOKS_AGAIN 3
/* If nothing happened for this many looks of 20 ms, and threads are parked, these look again: what they wait for
 * may have come from a library or from another process. */
#define LOOKS_BEFORE_RESCUE 5

SHARED volatile u32 holder;
SHARED volatile u64 progress;
SHARED u32 waiting[MOST_THREADS], waiting_count;
SHARED u32 parked[MOST_THREADS], parked_count;
SHARED u8 wakes_itself[MOST_THREADS];
SHARED volatile u32 woken[MOST_THREADS];
SHARED pid_t kernel_ids[MOST_THREADS];
SHARED volatile u32 living;
SHARED u64 chance;
SHARED u64 left_of_turn;
SHARED volatile u8 short_wait;
SHARED u8 rescuing;
SHARED __thread u64 put_off;
SHARED __thread volatile u8 is_waiting;
SHARED __thread volatile u8 was_interrupted;
SHARED __thread int awaited;
SHARED __thread short awaited_way;
SHARED volatile u32 looks_again;

SHARED void leave_turns(u8 was);
SHARED void lock_turns(void);
SHARED void unlock_turns(void);
SHARED struct before enter_turns(void);
SHARED void end_turns(struct before b);
SHARED u32 draw(u32 below);
SHARED void hand_to(u32 thread);
SHARED void hand_on(void);
SHARED void get_in_line_locked(void);
SHARED void get_in_line(void);
SHARED void leave_parked(u32 k);
SHARED void wait_in_line(void);
SHARED void take(void);
SHARED void give(void);
SHARED void give_and_take(void);
SHARED void let_others(void);
SHARED int park(const volatile void *at, const struct timespec *until, clockid_t clock);
SHARED void unpark_locked(const volatile void *at);
SHARED void unpark(const volatile void *at);
SHARED void bring_parked_in_line(void);
SHARED void keep_turn(void);
SHARED int is_asleep(u32 thread);
SHARED u64 ran_ms(u32 thread);
SHARED void rescue(void);

/* A call that waits in the C library, without the token. */
#define OUTSIDE(call) \
    ({ \
        int idle_ = IDLE; \
        if (!idle_) give(); \
        __typeof__(call) answer_ = (call); \
        if (!idle_) take(); \
        answer_; \
    })
#undef SHARED
