/* The locks of Rust's library, by the functions that the library calls. A write before a section of a Mutex and a read
 * after one race in another order of the sections. What the locks guard does not race. */
#include <pthread.h>
#include <sched.h>
#include <stdint.h>

extern int racebench_rust_lock(uint32_t *), racebench_rust_try_lock(uint32_t *), racebench_rust_unlock(uint32_t *);
extern int racebench_rust_wait(uint32_t *, uint32_t *, int64_t), racebench_rust_notify(uint32_t *, int);
extern int racebench_rust_read(uint32_t *), racebench_rust_try_read(uint32_t *), racebench_rust_read_unlock(uint32_t *);
extern int racebench_rust_write(uint32_t *), racebench_rust_try_write(uint32_t *);
extern int racebench_rust_write_unlock(uint32_t *), racebench_rust_downgrade(uint32_t *);

static uint32_t mutex, condition, lock[2];
static int value, sections[2], rows, ready, wrong;

static void *maker(void *none) {
    value = 1; /* RACE */
    racebench_rust_lock(&mutex);
    sections[0]++;
    racebench_rust_unlock(&mutex);
    racebench_rust_write(lock);
    rows++;
    racebench_rust_downgrade(lock);
    wrong += !rows;
    racebench_rust_read_unlock(lock);
    while (racebench_rust_try_lock(&mutex) == 0) sched_yield();
    ready = 1;
    racebench_rust_notify(&condition, 0);
    racebench_rust_unlock(&mutex);
    return none;
}

static void *taker(void *none) {
    racebench_rust_lock(&mutex);
    sections[1]++;
    racebench_rust_unlock(&mutex);
    int seen = value; /* RACE */
    racebench_rust_read(lock);
    seen += rows;
    racebench_rust_read_unlock(lock);
    while (racebench_rust_try_write(lock) == 0) sched_yield();
    rows += seen;
    racebench_rust_write_unlock(lock);
    while (racebench_rust_try_read(lock) == 0) sched_yield();
    seen = rows;
    racebench_rust_read_unlock(lock);
    racebench_rust_lock(&mutex);
    while (!ready) racebench_rust_wait(&condition, &mutex, -1);
    racebench_rust_unlock(&mutex);
    return none;
}

/* Nobody signals any more, so that the wait ends by time. */
static int ends_by_time(void) {
    racebench_rust_lock(&mutex);
    int answer = racebench_rust_wait(&condition, &mutex, 1000000);
    racebench_rust_unlock(&mutex);
    racebench_rust_notify(&condition, 1);
    return answer == 0;
}

int main(void) {
    pthread_t ids[2];
    if (pthread_create(&ids[0], NULL, maker, NULL) || pthread_create(&ids[1], NULL, taker, NULL)) return 1;
    for (int k = 0; k < 2; k++) pthread_join(ids[k], NULL);
    return !ends_by_time() || wrong || sections[0] + sections[1] != 2 || lock[0] || mutex;
}
