/* Queues of messages of POSIX and of System V, semaphores of System V, and timers that call a function: the receiver,
 * the waiter or the called function comes after the call that sent, posted or set. Interposes mq_send, msgsnd, semop,
 * timer_create and their kin. Must not wait in the call with the token. */
#include "accesses.h"
#include "atomics.h"
#include "callers.h"
#include "descriptors.h"
#include "events.h"
#include "meetings.h"
#include "openmp.h"
#include "threads.h"
#include "turns.h"
#include <mqueue.h>
#include <sys/msg.h>
#include <sys/sem.h>

static u64 number_of_queue(mqd_t queue) {
    struct stat about;
    return fstat((int)queue, &about) ? 0 : (u64)about.st_ino;
}

/* Before a call that sends. */
static void sends_on(u64 kind, u64 number, u64 pc) {
    if (IDLE) return;
    maybe_give();
    pass_of(OF_CHANNEL, channel_of(kind, number), pc);
}

/* After a call that received, or was refused. */
static void received_on(u64 kind, u64 number, long answer, u64 pc) {
    int error = errno;
    if (IDLE) return;
    keep_turn();
    if (answer >= 0) pass_of(OF_CHANNEL, channel_of(kind, number), pc);
    else put_answer(ANSWER, (u64)error, (u64)answer, pc);
    errno = error;
}

#define SENDS_ON(kind, number, type, name, given, passed_on) \
    type name given { \
        static type(*real) given; \
        if (!real) real = (type(*) given)next(#name, NULL); \
        sends_on(kind, IDLE ? 0 : (number), PC); \
        return OUTSIDE(real passed_on); \
    }
#define RECEIVES_ON(kind, number, type, name, given, passed_on) \
    type name given { \
        static type(*real) given; \
        if (!real) real = (type(*) given)next(#name, NULL); \
        if (!IDLE) maybe_give(); \
        type answer = OUTSIDE(real passed_on); \
        received_on(kind, IDLE ? 0 : (number), (long)answer, PC); \
        return answer; \
    }
SENDS_ON(QUEUE, number_of_queue(q), int, mq_send, (mqd_t q, const char *m, size_t n, unsigned p), (q, m, n, p))
SENDS_ON(QUEUE, number_of_queue(q), int, mq_timedsend,
         (mqd_t q, const char *m, size_t n, unsigned p, const struct timespec *t), (q, m, n, p, t))
RECEIVES_ON(QUEUE, number_of_queue(q), ssize_t, mq_receive, (mqd_t q, char *m, size_t n, unsigned *p), (q, m, n, p))
RECEIVES_ON(QUEUE, number_of_queue(q), ssize_t, mq_timedreceive,
            (mqd_t q, char *m, size_t n, unsigned *p, const struct timespec *t), (q, m, n, p, t))
SENDS_ON(MESSAGES, (u64)id, int, msgsnd, (int id, const void *m, size_t n, int g), (id, m, n, g))
RECEIVES_ON(MESSAGES, (u64)id, ssize_t, msgrcv, (int id, void *m, size_t n, long what, int g), (id, m, n, what, g))

/* Whether one of the operations posts, or waits. */
static int has_operation(const struct sembuf *all, size_t n, int posts) {
    for (size_t k = 0; k < n; k++)
        if ((all[k].sem_op > 0) == posts) return 1;
    return 0;
}

int semtimedop(int id, struct sembuf *all, size_t n, const struct timespec *t) {
    REAL(semtimedop, int, int, struct sembuf *, size_t, const struct timespec *);
    if (has_operation(all, n, 1)) sends_on(SEMAPHORES, (u64)id, PC);
    int answer = OUTSIDE(real(id, all, n, t));
    if (answer || has_operation(all, n, 0)) received_on(SEMAPHORES, (u64)id, answer, PC);
    return answer;
}
int semop(int id, struct sembuf *all, size_t n) {
    REAL(semop, int, int, struct sembuf *, size_t);
    if (has_operation(all, n, 1)) sends_on(SEMAPHORES, (u64)id, PC);
    int answer = OUTSIDE(real(id, all, n));
    if (answer || has_operation(all, n, 0)) received_on(SEMAPHORES, (u64)id, answer, PC);
    return answer;
}

/* ---- timers whose function the C library calls in a thread that it makes ---- */

static struct alarm {
    void (*function)(union sigval);
    union sigval value;
    u64 team;
    timer_t id;
    struct alarm *next;
} * alarms;

static void rings(union sigval v) {
    struct alarm *a = v.sival_ptr;
    if (!IDLE) {
        take();
        own_stack();
        meet(WENT_ON, OF_TEAM, a->team, 1, (u64)a->function + 1);
    }
    a->function(a->value);
}

/* The timer of a program's function, as the recorder's own. */
static struct alarm *alarm_of(struct sigevent *event) {
    struct alarm *a = __libc_calloc(1, sizeof *a);
    if (!a) return NULL;
    *a = (struct alarm){event->sigev_notify_function, event->sigev_value, __atomic_add_fetch(&teams, 1, SC), 0, alarms};
    event->sigev_notify_function = rings;
    event->sigev_value.sival_ptr = a;
    return a;
}

int timer_create(clockid_t clock, struct sigevent *event, timer_t *id) {
    REAL_OF(timer_create, "GLIBC_2.34", int, clockid_t, struct sigevent *, timer_t *);
    if (IDLE || !event || event->sigev_notify != SIGEV_THREAD) return real(clock, event, id);
    maybe_give();
    struct sigevent ours = *event;
    struct alarm *a = alarm_of(&ours);
    int answer = real(clock, &ours, id);
    if (a && !answer) {
        a->id = *id, alarms = a;
        meet(ARRIVED, OF_TEAM, a->team, 1, PC);
    }
    return answer;
}

int timer_settime(timer_t id, int how, const struct itimerspec *to, struct itimerspec *before) {
    REAL_OF(timer_settime, "GLIBC_2.34", int, timer_t, int, const struct itimerspec *, struct itimerspec *);
    struct alarm *a = IDLE ? NULL : alarms;
    while (a && a->id != id) a = a->next;
    if (a) maybe_give(), meet(ARRIVED, OF_TEAM, a->team, 1, PC);
    return real(id, how, to, before);
}
