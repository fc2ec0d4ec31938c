/* Keys and attributes of threads, mutexes and condition variables, and how a thread is scheduled and cancelled.
 * Interposes pthread_attr_*, pthread_mutexattr_*, pthread_key_create and their kin by the linker's --wrap. Must not
 * call them by their plain names: start.c makes its key by __real_pthread_key_create. */
#define OF_ATTRIBUTES
#include "attributes.h"
#include "accesses.h"
#include "callers.h"
#include "events.h"
#include "fills.h"
#include "texts.h"

/* A call that changes what it reads. */
#define CHANGES(name, given, passed_on, at, size) \
    FILLS(int, name, given, passed_on, READS(at, size), at, answer ? 0 : (size))

FILLS(int, pthread_key_create, (pthread_key_t * key, void (*end)(void *)), (key, end), , key, answer ? 0 : sizeof *key)
FILLS(int, tss_create, (tss_t * key, tss_dtor_t end), (key, end), , key, answer != thrd_success ? 0 : sizeof *key)

/* ---- attributes of a thread: of what the C library has in them, a call goes over its part ---- */

struct attributes {
    struct sched_param parameters;
    int policy, flags;
    size_t guard;
    void *stack_end;
    size_t stack;
};
#define MEMBER_OF(at, member) (&((struct attributes *)(at))->member)

FILLS(int, pthread_attr_init, (pthread_attr_t * a), (a), , a, answer ? 0 : sizeof *a)
#define ATTRIBUTE(name, type, member) \
    CHANGES(pthread_attr_set##name, (pthread_attr_t * a, type value), (a, value), MEMBER_OF(a, member), \
            sizeof *MEMBER_OF(a, member)) \
    FILLS(int, pthread_attr_get##name, (const pthread_attr_t *a, type *to), (a, to), \
          READS(MEMBER_OF(a, member), sizeof *MEMBER_OF(a, member)), to, answer ? 0 : sizeof *to)
ATTRIBUTE(detachstate, int, flags)
ATTRIBUTE(guardsize, size_t, guard)
ATTRIBUTE(stacksize, size_t, stack)

/* A thread is made by its attributes from the flags on. */
static void reads_attributes(const pthread_attr_t *a, u64 pc) {
    const size_t from = offsetof(struct attributes, flags);
    if (a) put(READ, (u64)a + from, sizeof(struct attributes) - from, pc);
}

/* ---- attributes of others ---- */

#define MAKES_ATTRIBUTES(of) \
    FILLS(int, pthread_##of##attr_init, (pthread_##of##attr_t * a), (a), , a, answer ? 0 : sizeof *a)
MAKES_ATTRIBUTES(mutex)
MAKES_ATTRIBUTES(cond)
MAKES_ATTRIBUTES(rwlock)
CHANGES(pthread_mutexattr_settype, (pthread_mutexattr_t * a, int type), (a, type), a, sizeof *a)
FILLS(int, pthread_mutexattr_gettype, (const pthread_mutexattr_t *a, int *to), (a, to), READS(a, sizeof *a), to,
      answer ? 0 : sizeof *to)
CHANGES(pthread_condattr_setclock, (pthread_condattr_t * a, clockid_t of), (a, of), a, sizeof *a)

/* ---- what a thread is set to ---- */

FILLS(int, pthread_setcancelstate, (int state, int *before), (state, before), , before,
      before && !answer ? sizeof *before : 0)
FILLS(int, sched_getaffinity, (pid_t of, size_t n, cpu_set_t *to), (of, n, to), , to, answer ? 0 : n)
FILLS(int, pthread_getaffinity_np, (pthread_t of, size_t n, cpu_set_t *to), (of, n, to), , to, answer ? 0 : n)
FILLS(int, sched_getparam, (pid_t of, struct sched_param *to), (of, to), , to, answer ? 0 : sizeof *to)

WEAKLY int __real_pthread_getschedparam(pthread_t, int *, struct sched_param *);
int __wrap_pthread_getschedparam(pthread_t of, int *policy, struct sched_param *to) {
    comes_to_call();
    int answer = __real_pthread_getschedparam(of, policy, to);
    wrote(policy, answer ? 0 : sizeof *policy, PC), wrote(to, answer ? 0 : sizeof *to, PC);
    return answer;
}
