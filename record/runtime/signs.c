/* Signals that a thread sends to this process, and that another waits for: as a message. Interposes kill, sigqueue,
 * pthread_kill and pthread_sigqueue. Must not put a record after the call: the handler may have run already. */
#define OF_SIGNS
#include "signs.h"
#include "accesses.h"
#include "callers.h"
#include "descriptors.h"
#include "events.h"
#include "readers.h"
#include "turns.h"

static void sends_signal(int number, u64 pc) {
    if (IDLE || number <= 0) return;
    maybe_give();
    pass_of(OF_CHANNEL, channel_of(SIGNAL, (u64)number), pc);
}

#define SENDS_SIGNAL(name, given, passed_on, is_own) \
    int name given { \
        static int(*real) given; \
        if (!real) real = (int(*) given)next(#name, NULL); \
        if (is_own) sends_signal(number, PC); \
        return real passed_on; \
    }
SENDS_SIGNAL(kill, (pid_t to, int number), (to, number), to == getpid() || to == 0)
SENDS_SIGNAL(sigqueue, (pid_t to, int number, const union sigval v), (to, number, v), to == getpid())
SENDS_SIGNAL(pthread_kill, (pthread_t to, int number), (to, number), 1)
SENDS_SIGNAL(pthread_sigqueue, (pthread_t to, int number, const union sigval v), (to, number, v), 1)

/* After a call that returned a signal. */
static void got_signal(int number, u64 pc) {
    if (IDLE || number <= 0) return;
    keep_turn();
    pass_of(OF_CHANNEL, channel_of(SIGNAL, (u64)number), pc);
}
