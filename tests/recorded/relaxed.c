/* Relaxed atomics order nothing, unless fences do: the counter does not order the two lines at RACE, and the fences
 * order `message`. */
#include <pthread.h>
#include <sched.h>
#include <stdatomic.h>

static atomic_int count, is_sent;
static int racy, message;

static void *first(void *none) {
    racy = 1; /* RACE */
    atomic_fetch_add_explicit(&count, 1, memory_order_relaxed);
    message = 1;
    atomic_thread_fence(memory_order_release);
    atomic_store_explicit(&is_sent, 1, memory_order_relaxed);
    return none;
}

static void *second(void *none) {
    while (!atomic_load_explicit(&is_sent, memory_order_relaxed)) sched_yield();
    atomic_thread_fence(memory_order_acquire);
    message++;
    return none;
}

static void *third(void *none) {
    while (!atomic_fetch_add_explicit(&count, 0, memory_order_relaxed)) sched_yield();
    racy = 2; /* RACE */
    return none;
}

int main(void) {
    void *(*bodies[])(void *) = {first, second, third};
    pthread_t ids[3];
    for (int k = 0; k < 3; k++) if (pthread_create(&ids[k], NULL, bodies[k], NULL)) return 1;
    for (int k = 0; k < 3; k++) pthread_join(ids[k], NULL);
    return message + racy == 0;
}
