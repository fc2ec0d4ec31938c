/* Signals. A handler that comes while its thread waits outside of its turn takes the turn at its first hook, and gives
 * it back at its end: else the thread would wait on with the token. One that comes while its thread waits in the
 * recorder gets the turn first, and the thread goes on in it. Signals that are pending at its end come at once, and
 * their handlers run in the same turn. A signal that comes while its thread works on turns is put off until it waits
 * or is done. Interposes sigaction, signal, the calls that change a mask and those on sets. What runs in a handler
 * must not allocate, and must not wait for the turns' lock. */
#include "signals.h"
#include "accesses.h"
#include "callers.h"
#include "channels.h"
#include "deadlocks.h"
#include "events.h"
#include "follow.h"
#include "turns.h"
#include "values.h"

static struct sigaction handlers[NSIG];

/* So many handlers may run in one turn of a thread that waits. Later ones come at once, unrecorded, until it waits again:
 * so it goes on also if signals come faster than their handlers are recorded. */
#define MOST_IN_A_ROW 16
static __thread u32 in_a_row;

static int is_in_line(void) {
    for (u32 k = 0; k < waiting_count; k++)
        if (waiting[k] == me) return 1;
    return woken[me] != 0;
}

/* Gets the turn, where this thread waits for it or is parked; who is parked looks again when the handler is done. */
static int gets_turn(void) {
    if (!is_waiting || !on || following || me >= MOST_THREADS) return 0;
    lock_turns();
    for (u32 k = 0; k < parked_count; k++)
        if (parked[k] == me) {
            leave_parked(k);
            get_in_line_locked();
            break;
        }
    int comes = is_in_line();
    unlock_turns();
    if (comes) wait_in_line();
    return comes;
}

static int is_of_fault(int number) {
    return number == SIGSEGV || number == SIGBUS || number == SIGFPE || number == SIGILL || number == SIGTRAP;
}

/* Puts a signal off, where its thread works on turns: sends it again, and blocks it from the end of this handler on. */
static int is_put_off(int number, siginfo_t *info, void *context) {
    int works = (inside & (IN_TURNS | HAS_LOCK)) && !is_waiting && in_a_row < MOST_IN_A_ROW;
    if (!works || !on || following || is_of_fault(number) || (handlers[number].sa_flags & SA_RESETHAND)) return 0;
    int error = errno;
    long answer = syscall(SYS_rt_tgsigqueueinfo, syscall(SYS_getpid), syscall(SYS_gettid), number, info);
    errno = error;
    if (answer) return 0;
    __real_sigaddset(&((ucontext_t *)context)->uc_sigmask, number);
    put_off |= 1ull << (number - 1);
    return 1;
}

static void handle(int number, siginfo_t *info, void *context) {
    if (is_put_off(number, info, context)) return;
    struct sigaction *a = &handlers[number];
    int had_turn = me < MOST_THREADS && holder == me, outside = !IDLE && me < MOST_THREADS && !had_turn;
    int error = errno, waits = gets_turn();
    if (waits) in_a_row = had_turn ? in_a_row + 1 : 0, inside = 0;
    if (!(a->sa_flags & SA_RESTART)) was_interrupted = 1;
    errno = error;
    forget_value();
    if (a->sa_flags & SA_SIGINFO) a->sa_sigaction(number, info, context);
    else a->sa_handler(number);
    forget_value();
    if (outside) give();
    if (waits) keep_turn(), inside = IN_TURNS, is_waiting = in_a_row < MOST_IN_A_ROW;
}

static int is_handler(const struct sigaction *a) {
    return (a->sa_flags & SA_SIGINFO) || (a->sa_handler != SIG_DFL && a->sa_handler != SIG_IGN);
}

static int set_handler(int number, const struct sigaction *wanted, struct sigaction *before) {
    REAL(sigaction, int, int, const struct sigaction *, struct sigaction *);
    if (number <= 0 || number >= NSIG) return real(number, wanted, before);
    struct sigaction was = handlers[number], ours;
    if (wanted) ours = *wanted;
    if (wanted && is_handler(wanted)) {
        handlers[number] = *wanted;
        ours.sa_sigaction = handle, ours.sa_flags |= SA_SIGINFO;
    }
    int answer = real(number, wanted ? &ours : NULL, before);
    if (!answer && before && (before->sa_flags & SA_SIGINFO) && before->sa_sigaction == handle) {
        before->sa_sigaction = was.sa_sigaction;
        if (!(was.sa_flags & SA_SIGINFO)) before->sa_flags &= ~SA_SIGINFO;
    }
    return answer;
}

static int set_handler_inside(int number, const struct sigaction *wanted, struct sigaction *before) {
    u8 outer = inside;
    inside = 1;
    int answer = set_handler(number, wanted, before);
    inside = outer;
    return answer;
}

/* A handler may call this too. */
int sigaction(int number, const struct sigaction *wanted, struct sigaction *before) {
    u64 pc = PC;
    if (wanted) access_(READ, wanted, sizeof *wanted, pc);
    int answer = set_handler_inside(number, wanted, before);
    if (before) wrote(before, answer ? 0 : sizeof *before, pc);
    return answer;
}

/* As signal() of the C library: a call that is interrupted goes on, and the handler stays. */
sighandler_t signal(int number, sighandler_t handler) {
    struct sigaction wanted = {.sa_flags = SA_RESTART}, before;
    wanted.sa_handler = handler;
    __real_sigemptyset(&wanted.sa_mask);
    __real_sigaddset(&wanted.sa_mask, number);
    return handler == SIG_ERR || set_handler_inside(number, &wanted, &before) ? SIG_ERR : before.sa_handler;
}

/* ---- sets of signals: the C library keeps them in a word ---- */

#define CHANGES_MASK(name) \
    extern int __real_##name(int, const sigset_t *, sigset_t *); \
    int __wrap_##name(int how, const sigset_t *set, sigset_t *before) { \
        if (set) access_(READ, set, SIGNAL_WORD, PC); \
        int answer = __real_##name(how, set, before); \
        if (before) wrote(before, answer ? 0 : SIGNAL_WORD, PC); \
        return answer; \
    }
CHANGES_MASK(sigprocmask)
CHANGES_MASK(pthread_sigmask)

#define OF_SET(name, given, passed_on, goes_over) \
    extern int __real_##name given; \
    int __wrap_##name given { \
        goes_over; \
        return __real_##name passed_on; \
    }
#define READS_SET access_(READ, set, SIGNAL_WORD, PC)
#define WRITES_SET access_(WRITE, set, SIGNAL_WORD, PC)
OF_SET(sigpending, (sigset_t * set), (set), WRITES_SET)
OF_SET(sigemptyset, (sigset_t * set), (set), WRITES_SET)
OF_SET(sigfillset, (sigset_t * set), (set), WRITES_SET)
OF_SET(sigaddset, (sigset_t * set, int n), (set, n), (READS_SET, WRITES_SET))
OF_SET(sigdelset, (sigset_t * set, int n), (set, n), (READS_SET, WRITES_SET))
OF_SET(sigismember, (const sigset_t *set, int n), (set, n), READS_SET)
