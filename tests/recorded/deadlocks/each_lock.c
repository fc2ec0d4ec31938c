/* Two threads take a mutex and a lock of another kind in two orders: the argument names the kind. With `condition` the
 * first thread waits at a condition variable for a while, and takes its mutex again when it has waited. */
#include <omp.h>
#include <pthread.h>
#include <stdio.h>
#include <string.h>
#include <threads.h>
#include <time.h>
static pthread_mutex_t a = PTHREAD_MUTEX_INITIALIZER, b = PTHREAD_MUTEX_INITIALIZER;
static pthread_cond_t never = PTHREAD_COND_INITIALIZER;
static pthread_spinlock_t spin;
static pthread_rwlock_t table = PTHREAD_RWLOCK_INITIALIZER;
static mtx_t plain;
static omp_lock_t team;
static const char *kind;
static int is(const char *name) { return !strcmp(kind, name); }

static void take(void) {
    if (is("spin")) pthread_spin_lock(&spin);
    if (is("reader")) pthread_rwlock_wrlock(&table);
    if (is("writer")) pthread_rwlock_rdlock(&table);
    if (is("stream")) flockfile(stdout);
    if (is("c11")) mtx_lock(&plain);
    if (is("openmp")) omp_set_lock(&team);
    if (is("condition")) pthread_mutex_lock(&b);
}
static void let_go(void) {
    if (is("spin")) pthread_spin_unlock(&spin);
    if (is("reader") || is("writer")) pthread_rwlock_unlock(&table);
    if (is("stream")) funlockfile(stdout);
    if (is("c11")) mtx_unlock(&plain);
    if (is("openmp")) omp_unset_lock(&team);
    if (is("condition")) pthread_mutex_unlock(&b);
}
static void take_before(void) {
    if (is("reader")) pthread_rwlock_rdlock(&table);
    else if (is("writer")) pthread_rwlock_wrlock(&table);
    else take();
}
static void *first(void *arg) {
    struct timespec end = {0, 0};
    take_before();
    pthread_mutex_lock(&a);
    if (is("condition")) pthread_cond_timedwait(&never, &a, &end);
    pthread_mutex_unlock(&a);
    let_go();
    return arg;
}
static void *second(void *arg) {
    pthread_mutex_lock(&a);
    take();
    let_go();
    pthread_mutex_unlock(&a);
    return arg;
}
int main(int count, char **words) {
    pthread_t t[2];
    kind = count > 1 ? words[1] : "";
    pthread_spin_init(&spin, PTHREAD_PROCESS_PRIVATE);
    mtx_init(&plain, mtx_plain);
    omp_init_lock(&team);
    pthread_create(&t[0], NULL, first, NULL);
    pthread_create(&t[1], NULL, second, NULL);
    for (int i = 0; i < 2; i++) pthread_join(t[i], NULL);
    return 0;
}
