/* What OpenMP orders: regions, loops, barriers, sections, single, master, critical, locks, ordered, reductions, and tasks. */
#include <omp.h>
#include <stdlib.h>
static int filled[64], by_loop, by_reduction, by_critical, by_named, by_single, by_master, by_lock, by_barrier[4], by_section[2], by_order,
    by_task, by_tasks[8], chained, by_group;
static volatile int racy;
static omp_lock_t lock;

static void loops(void) {
    #pragma omp parallel for num_threads(4)
    for (int k = 0; k < 64; k++) filled[k] = k;
    for (int k = 0; k < 64; k++) by_loop += filled[k];
    #pragma omp parallel for num_threads(4) schedule(dynamic, 2) reduction(+ : by_reduction)
    for (int k = 0; k < 64; k++) by_reduction += filled[k]++;
    #pragma omp parallel num_threads(4)
    {
        #pragma omp sections
        {
            #pragma omp section
            by_section[0]++;
            #pragma omp section
            by_section[1]++;
        }
        #pragma omp for ordered schedule(dynamic)
        for (int k = 0; k < 8; k++) {
            #pragma omp ordered
            by_order = 2 * by_order + k;
        }
    }
}

static void one_for_all(void) {
    int made;
    #pragma omp parallel num_threads(4) private(made)
    {
        int me = omp_get_thread_num();
        if (me < 2) racy++; /* RACE */
        #pragma omp critical
        by_critical++;
        #pragma omp critical(named)
        by_named++;
        #pragma omp single
        by_single++;
        #pragma omp master
        by_master = by_single;
        #pragma omp barrier
        omp_set_lock(&lock), by_lock++, omp_unset_lock(&lock);
        #pragma omp barrier
        by_barrier[me] = by_lock + by_master;
        #pragma omp single copyprivate(made)
        made = ++by_single;
        #pragma omp critical
        by_critical += made;
    }
}

static int fibonacci(int n) {
    int a, b;
    if (n < 2) return n;
    #pragma omp task shared(a)
    a = fibonacci(n - 1);
    #pragma omp task shared(b)
    b = fibonacci(n - 2);
    #pragma omp taskwait
    return a + b;
}

static void tasks(void) {
    for (int k = 0; k < 8; k++) {
        #pragma omp task firstprivate(k)
        by_tasks[k]++;
    }
    #pragma omp taskwait
    for (int k = 0; k < 8; k++) by_task += by_tasks[k];
    #pragma omp task depend(out : chained)
    chained = 1;
    #pragma omp task depend(inout : chained)
    chained++;
    #pragma omp taskgroup
    {
        #pragma omp task
        {
            #pragma omp task
            by_group++;
        }
    }
    by_group++;
    by_task += fibonacci(5);
}

int main(void) {
    omp_init_lock(&lock);
    loops();
    one_for_all();
    #pragma omp parallel num_threads(4)
    #pragma omp single
    tasks();
    if (!(by_loop == 2016 && by_reduction == 2016 && by_critical == 12 && by_task == 13 && chained == 2 && by_group == 2)) abort();
    return 0;
}
