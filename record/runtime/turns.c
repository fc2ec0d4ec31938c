/* The token: a thread of the program runs only while it has it. A hook comes before its access, so with two threads
 * running the records could have another order than the accesses. Interposes nothing. With the turns' lock held it
 * must not put a record, allocate or call the C library: a hook would wait for the same lock. */
#define OF_TURNS
#include "turns.h"
#include "channels.h"
#include "follow.h"
#include "threads.h"
#include "values.h"

static volatile u32 holder = NOBODY;
static volatile u64 progress;
/* Threads that wait for the token, and threads that wait for something of other threads. */
static u32 waiting[MOST_THREADS], waiting_count;
static u32 parked[MOST_THREADS], parked_count;
static const volatile void *parked_at[MOST_THREADS];
/* Whether a parked thread looks again by itself: after a time, or at a descriptor. */
static u8 wakes_itself[MOST_THREADS];
static volatile u32 woken[MOST_THREADS];
/* The numbers of the threads in the system. */
static pid_t kernel_ids[MOST_THREADS];
/* The threads of the program that have not ended. */
static volatile u32 living = 1;
static volatile u8 turns_lock;
static u64 chance;
/* How many accesses are left of this turn. */
static u64 left_of_turn = 1;
/* The holder waits, but not for long: for the end of a thread that has had its last turn, or for a team of OpenMP that
 * is made or ended. */
static volatile u8 short_wait;
/* Parked threads look whether what they wait for came from outside: nothing is drawn during that. */
static u8 rescuing;

/* Signals of this thread that came in the midst of its work on turns; it blocks them until they may come. */
static __thread u64 put_off;

/* Their handlers run here. */
static void let_signals_come(void) {
    u64 signals = put_off;
    if (!signals) return;
    put_off = 0;
    syscall(SYS_rt_sigprocmask, SIG_UNBLOCK, &signals, NULL, sizeof signals);
}

static void leave_turns(u8 was) {
    inside = was;
    if (!(was & (IN_TURNS | HAS_LOCK))) let_signals_come();
}

static void lock_turns(void) {
    inside |= HAS_LOCK;
    while (__atomic_exchange_n(&turns_lock, 1, __ATOMIC_ACQUIRE)) syscall(SYS_sched_yield);
}

static void unlock_turns(void) {
    __atomic_store_n(&turns_lock, 0, __ATOMIC_RELEASE);
    leave_turns(inside & (u8)~HAS_LOCK);
}

static struct before enter_turns(void) {
    struct before b = {errno, inside, 0};
    b.holds_cancel = hold_cancel();
    inside = IN_TURNS;
    return b;
}

static void end_turns(struct before b) {
    leave_turns(b.inside);
    errno = b.error;
    let_cancel(b.holds_cancel);
}

/* xorshift64*: all choices come from the seed. */
static u32 draw(u32 below) {
    chance ^= chance >> 12;
    chance ^= chance << 25;
    chance ^= chance >> 27;
    return (u32)((chance * 2685821657736338717ull) >> 33) % below;
}

/* The turns' lock is held. All results of this turn are written before the thread is woken. */
static void hand_to(u32 thread) {
    left_of_turn = 0;
    __atomic_store_n(&holder, thread, __ATOMIC_SEQ_CST);
    head->turns++;
    progress++;
    __atomic_store_n(&woken[thread], 1, __ATOMIC_SEQ_CST);
    syscall(SYS_futex, &woken[thread], FUTEX_WAKE_PRIVATE, 1, NULL, NULL, 0);
}

/* Gives the token to a thread that waits for it, or to nobody. The turns' lock is held. */
static void hand_on(void) {
    if (following) last_access_done();
    u32 k = choose();
    if (k == NOBODY) {
        rescuing = 0;
        __atomic_store_n(&holder, NOBODY, __ATOMIC_SEQ_CST);
        return;
    }
    u32 thread = waiting[k];
    waiting[k] = waiting[--waiting_count];
    hand_to(thread);
}

/* Takes the token where nobody has it, else gets in line for it. The turns' lock is held. */
static void get_in_line_locked(void) {
    int free_for_me = holder == NOBODY && may_take();
    __atomic_store_n(&woken[me], free_for_me, __ATOMIC_SEQ_CST);
    if (free_for_me) {
        __atomic_store_n(&holder, me, __ATOMIC_SEQ_CST);
        progress++;
    } else {
        waiting[waiting_count++] = me;
    }
}

static void get_in_line(void) {
    lock_turns();
    get_in_line_locked();
    unlock_turns();
}

/* Takes parked thread number k out of the line of the parked. The turns' lock is held. */
static void leave_parked(u32 k) {
    parked_at[parked[k]] = NULL;
    parked[k] = parked[--parked_count];
}

/* This thread gets in line if it is parked; whether it was. The turns' lock is held. */
static int leave_parked_for_line(void) {
    for (u32 k = 0; k < parked_count; k++)
        if (parked[k] == me) {
            leave_parked(k);
            get_in_line_locked();
            return 1;
        }
    return 0;
}

/* This thread waits in the kernel, without the recorder's lock. */
static __thread volatile u8 is_waiting;
/* A handler came that ends the call it interrupts. */
static __thread volatile u8 was_interrupted;

static void begin_waiting(void) {
    is_waiting = 1;
    let_signals_come();
}

/* The descriptor that this thread is parked for, or -1: what comes through it may be sent by code without hooks. So the
 * thread looks now and then itself, and is in line when something came. */
static __thread int awaited = -1;
static __thread short awaited_way;
#define LOOK_AT_AWAITED \
    { 0, 500000000 }

static void look_at_awaited(void) {
    if (!at_once(awaited, awaited_way)) return;
    lock_turns();
    leave_parked_for_line();
    unlock_turns();
}

static void wait_in_line(void) {
    begin_waiting();
    while (!__atomic_load_n(&woken[me], __ATOMIC_SEQ_CST)) {
        struct timespec pause = LOOK_AT_AWAITED, *until = awaited < 0 ? NULL : &pause;
        long answer = syscall(SYS_futex, &woken[me], FUTEX_WAIT_PRIVATE, 0, until, NULL, 0);
        if (answer == 0 || errno != ETIMEDOUT) continue;
        is_waiting = 0;
        look_at_awaited();
        begin_waiting();
    }
    is_waiting = 0;
}

/* Waits for the token; a thread that has it keeps it. */
static void take(void) {
    if (me == NOBODY) stranger();
    if (me >= MOST_THREADS || holder == me) return;
    struct before b = enter_turns();
    get_in_line();
    wait_in_line();
    end_turns(b);
}

static void give(void) {
    if (me >= MOST_THREADS || holder != me) return;
    if (keeps_values) settle_value();
    struct before b = enter_turns();
    lock_turns();
    if (holder == me) hand_on();
    unlock_turns();
    end_turns(b);
}

/* Gives the token to another thread that waits for it, and gets in line, in one step: else that thread could come to
 * its own choice before. */
static void give_and_take(void) {
    if (me >= MOST_THREADS || holder != me || following) {
        give();
        take();
        return;
    }
    if (keeps_values) settle_value();
    struct before b = enter_turns();
    lock_turns();
    u32 k = choose();
    if (k != NOBODY) {
        u32 thread = waiting[k];
        __atomic_store_n(&woken[me], 0, __ATOMIC_SEQ_CST);
        waiting[k] = me;
        hand_to(thread);
    }
    unlock_turns();
    if (k != NOBODY) wait_in_line();
    end_turns(b);
}

/* For a thread that can't go on yet: it looks again after others ran, or after a moment if no other waits. */
static void let_others(void) {
    int error = errno;
    if (following && waits_in_plan()) return;
    if (waiting_count) {
        give_and_take();
        return;
    }
    give();
    struct timespec moment = {0, 50000};
    syscall(SYS_nanosleep, &moment, NULL);
    take();
    errno = error;
}

/* Waits until the thread is unparked, or until that time; whether the time is over. */
static int wait_parked(const struct timespec *until, clockid_t clock) {
    int how = FUTEX_WAIT_BITSET | FUTEX_PRIVATE_FLAG | (clock == CLOCK_REALTIME ? FUTEX_CLOCK_REALTIME : 0), late = 0;
    while (until && !late && !__atomic_load_n(&woken[me], __ATOMIC_SEQ_CST)) {
        begin_waiting();
        long answer = syscall(SYS_futex, &woken[me], how, 0, until, NULL, FUTEX_BITSET_MATCH_ANY);
        is_waiting = 0;
        if (answer == 0 || (errno != ETIMEDOUT && errno != EINVAL)) continue;
        lock_turns();
        late = leave_parked_for_line();
        unlock_turns();
        break;
    }
    wait_in_line();
    return late;
}

/* Waits for what another thread will do at `at`; the caller looks again. Whether the time came first. */
static int park(const volatile void *at, const struct timespec *until, clockid_t clock) {
    if (following || me >= MOST_THREADS) {
        let_others();
        return 0;
    }
    if (keeps_values) settle_value();
    struct before b = enter_turns();
    lock_turns();
    __atomic_store_n(&woken[me], 0, __ATOMIC_SEQ_CST);
    parked_at[me] = at;
    wakes_itself[me] = until || awaited >= 0;
    parked[parked_count++] = me;
    if (holder == me) hand_on();
    unlock_turns();
    int late = wait_parked(until, clock);
    end_turns(b);
    return late;
}

/* Those who wait for this look again when they have their turn. */
static void unpark_locked(const volatile void *at) {
    for (u32 k = 0; k < parked_count;) {
        u32 thread = parked[k];
        if (parked_at[thread] != at) {
            k++;
            continue;
        }
        leave_parked(k);
        waiting[waiting_count++] = thread;
    }
    if (holder == NOBODY) hand_on();
}

static void unpark(const volatile void *at) {
    if (!parked_count) return;
    u8 held = hold_cancel();
    lock_turns();
    unpark_locked(at);
    unlock_turns();
    let_cancel(held);
}

static volatile u32 looks_again;

/* The turns' lock is held. */
static void bring_parked_in_line(void) {
    while (parked_count) {
        waiting[waiting_count++] = parked[parked_count - 1];
        leave_parked(parked_count - 1);
    }
}

static inline void keep_turn(void) {
    if (me == NOBODY || holder != me) take();
}

/* Whether a thread waits in the system, as its state there says: neither running, nor ready to run, nor held up by a
 * disk. */
static int is_asleep(u32 thread) {
    char path[64], text[256];
    snprintf(path, sizeof path, "/proc/self/task/%d/stat", (int)kernel_ids[thread]);
    int file = (int)syscall(SYS_openat, AT_FDCWD, path, O_RDONLY | O_CLOEXEC);
    if (file < 0) return 1;
    long n = syscall(SYS_read, file, text, sizeof text - 1);
    syscall(SYS_close, file);
    text[n > 0 ? n : 0] = 0;
    char *behind_the_name = strrchr(text, ')');
    return !behind_the_name || behind_the_name[1] != ' ' || behind_the_name[2] == 'S';
}

/* How many milliseconds a thread has had a processor: its clock as pthread_getcpuclockid names it. */
static u64 ran_ms(u32 thread) {
    struct timespec t = {0, 0};
    if (thread >= MOST_THREADS) return 0;
    syscall(SYS_clock_gettime, ~(clockid_t)kernel_ids[thread] << 3 | 6, &t);
    return (u64)t.tv_sec * 1000 + (u64)t.tv_nsec / 1000000;
}

static void rescue(void) {
    rescuing = 1;
    bring_parked_in_line();
    hand_on();
}
