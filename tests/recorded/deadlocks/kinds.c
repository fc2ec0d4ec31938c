/* Two threads in a circle over each kind of lock: the argument names the kind, and a barrier makes the circle sure. */
#include <omp.h>
#include <pthread.h>
#include <stdio.h>
#include <string.h>
#include <threads.h>
static pthread_barrier_t both;
static pthread_mutex_t a = PTHREAD_MUTEX_INITIALIZER;
static pthread_spinlock_t spin;
static pthread_rwlock_t table = PTHREAD_RWLOCK_INITIALIZER;
static mtx_t plain;
static omp_lock_t team;
static const char *kind;
static int is(const char *name) { return !strcmp(kind, name); }

static void take(void) {
    if (is("spin")) pthread_spin_lock(&spin);
    if (is("reader")) pthread_rwlock_wrlock(&table);
    if (is("writer")) pthread_rwlock_rdlock(&table);
    if (is("stream")) flockfile(stdout);
    if (is("c11")) mtx_lock(&plain);
    if (is("openmp")) omp_set_lock(&team);
}
static void take_before(void) {
    if (is("reader")) pthread_rwlock_rdlock(&table);
    else if (is("writer")) pthread_rwlock_wrlock(&table);
    else take();
}
static void *first(void *arg) {
    take_before();
    pthread_barrier_wait(&both);
    pthread_mutex_lock(&a);
    return arg;
}
static void *second(void *arg) {
    pthread_mutex_lock(&a);
    pthread_barrier_wait(&both);
    take();
    return arg;
}
int main(int count, char **words) {
    pthread_t t[2];
    kind = count > 1 ? words[1] : "";
    pthread_barrier_init(&both, NULL, 2);
    pthread_spin_init(&spin, PTHREAD_PROCESS_PRIVATE);
    mtx_init(&plain, mtx_plain);
    omp_init_lock(&team);
    pthread_create(&t[0], NULL, first, NULL);
    pthread_create(&t[1], NULL, second, NULL);
    for (int i = 0; i < 2; i++) pthread_join(t[i], NULL);
    return 0;
}
