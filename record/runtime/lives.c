/* The life of locks, condition variables, semaphores and barriers: a call that makes or destroys one writes its bytes.
 * The decoder takes each use of it for a read. What the C library ends when the program exits has no line of the
 * program. Interposes the *_init and *_destroy calls. Must not record a call that code without hooks made: libraries
 * make locks too. */
#include "accesses.h"
#include "callers.h"
#include "events.h"

static void lives(const void *it, size_t size, u64 pc) {
    if (!IDLE && is_hooked(pc)) accessed(WRITE, it, size, pc);
}

#define LIVES(name, type, given, passed_on) \
    int name given { \
        static int(*real) given; \
        if (!real) real = (int(*) given)next(#name, NULL); \
        lives((const void *)it, sizeof(type), PC); \
        return real passed_on; \
    }
LIVES(pthread_mutex_init, pthread_mutex_t, (pthread_mutex_t * it, const pthread_mutexattr_t *by), (it, by))
LIVES(pthread_mutex_destroy, pthread_mutex_t, (pthread_mutex_t * it), (it))
LIVES(pthread_rwlock_init, pthread_rwlock_t, (pthread_rwlock_t * it, const pthread_rwlockattr_t *by), (it, by))
LIVES(pthread_rwlock_destroy, pthread_rwlock_t, (pthread_rwlock_t * it), (it))
LIVES(pthread_spin_init, pthread_spinlock_t, (pthread_spinlock_t * it, int shared), (it, shared))
LIVES(pthread_spin_destroy, pthread_spinlock_t, (pthread_spinlock_t * it), (it))
LIVES(pthread_barrier_init, pthread_barrier_t,
      (pthread_barrier_t * it, const pthread_barrierattr_t *by, unsigned count), (it, by, count))
LIVES(pthread_barrier_destroy, pthread_barrier_t, (pthread_barrier_t * it), (it))
LIVES(sem_destroy, sem_t, (sem_t * it), (it))
LIVES(mtx_init, mtx_t, (mtx_t * it, int type), (it, type))
LIVES(cnd_init, cnd_t, (cnd_t * it), (it))

#define ENDS_LIFE(name, type) \
    void name(type *it) { \
        REAL(name, void, type *); \
        lives(it, sizeof *it, PC); \
        real(it); \
    }
ENDS_LIFE(mtx_destroy, mtx_t)
ENDS_LIFE(cnd_destroy, cnd_t)

int pthread_cond_init(pthread_cond_t *it, const pthread_condattr_t *by) {
    REAL_OF(pthread_cond_init, "GLIBC_2.3.2", int, pthread_cond_t *, const pthread_condattr_t *);
    lives(it, sizeof *it, PC);
    return real(it, by);
}

int pthread_cond_destroy(pthread_cond_t *it) {
    REAL_OF(pthread_cond_destroy, "GLIBC_2.3.2", int, pthread_cond_t *);
    lives(it, sizeof *it, PC);
    return real(it);
}

/* Its value says how many waits need no post. */
int sem_init(sem_t *it, int shared, unsigned value) {
    REAL(sem_init, int, sem_t *, int, unsigned);
    put_record(
        (struct record){.kind = WRITE, .at = (u64)it, .size = sizeof *it, .pc = PC, .answer = value, .order = MADE});
    return real(it, shared, value);
}
