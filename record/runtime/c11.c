/* The threads of C11 are those of POSIX with other answers. Interposes thrd_create, mtx_lock, cnd_wait, call_once and
 * their kin. Must not call pthread_mutex_lock and its kin, which would make a second record: `lock` makes it. */
#include "accesses.h"
#include "callers.h"
#include "conditions.h"
#include "events.h"
#include "locks.h"
#include "meetings.h"
#include "threads.h"

struct c11_child {
    int (*body)(void *);
    void *argument;
};

static void *c11_body(void *p) {
    struct c11_child c = *(struct c11_child *)p;
    __libc_free(p);
    return (void *)(intptr_t)c.body(c.argument);
}

static int c11_answer(int answer) {
    switch (answer) {
    case 0: return thrd_success;
    case EBUSY: return thrd_busy;
    case ETIMEDOUT: return thrd_timedout;
    case ENOMEM: return thrd_nomem;
    default: return thrd_error;
    }
}

int thrd_create(thrd_t *id, thrd_start_t body, void *argument) {
    struct c11_child *c = __libc_malloc(sizeof *c);
    if (!c) return thrd_nomem;
    *c = (struct c11_child){body, argument};
    int answer = create((pthread_t *)id, NULL, c11_body, c, PC);
    if (answer) __libc_free(c);
    return answer == EAGAIN ? thrd_nomem : c11_answer(answer);
}

int thrd_join(thrd_t id, int *value) {
    void *given = NULL;
    int answer = join((pthread_t)id, &given, PC);
    if (value) *value = (int)(intptr_t)given, wrote(value, sizeof *value, PC);
    return c11_answer(answer);
}

int thrd_detach(thrd_t id) { return c11_answer(pthread_detach((pthread_t)id)); }

int mtx_lock(mtx_t *m) { return c11_answer(lock((pthread_mutex_t *)m, NULL, 0, LOCK_PC)); }
int mtx_trylock(mtx_t *m) { return c11_answer(try_lock((pthread_mutex_t *)m, LOCK_PC)); }
int mtx_unlock(mtx_t *m) { return c11_answer(unlock((pthread_mutex_t *)m, LOCK_PC)); }
int mtx_timedlock(mtx_t *m, const struct timespec *t) {
    REAL(mtx_timedlock, int, mtx_t *, const struct timespec *);
    return IDLE ? real(m, t) : c11_answer(lock((pthread_mutex_t *)m, t, CLOCK_REALTIME, LOCK_PC));
}

int cnd_signal(cnd_t *c) { return c11_answer(pthread_cond_signal((pthread_cond_t *)c)); }
int cnd_broadcast(cnd_t *c) { return c11_answer(pthread_cond_broadcast((pthread_cond_t *)c)); }

int cnd_wait(cnd_t *c, mtx_t *m) {
    REAL(cnd_wait, int, cnd_t *, mtx_t *);
    if (IDLE) return real(c, m);
    return c11_answer(wait_for((pthread_cond_t *)c, (pthread_mutex_t *)m, NULL, 0, LOCK_PC));
}

int cnd_timedwait(cnd_t *c, mtx_t *m, const struct timespec *t) {
    REAL(cnd_timedwait, int, cnd_t *, mtx_t *, const struct timespec *);
    if (IDLE) return real(c, m, t);
    return c11_answer(wait_for((pthread_cond_t *)c, (pthread_mutex_t *)m, t, CLOCK_REALTIME, LOCK_PC));
}

void call_once(once_flag *o, void (*routine)(void)) { do_once((pthread_once_t *)o, routine, PC); }
