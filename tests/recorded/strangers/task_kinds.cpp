// Tasks of OpenMP that hang on variables, are nested, sum up or are detached, waits for some of them, and a loop that
// may be cancelled: nothing races.
#include <cstdio>
#include <omp.h>
static volatile int chained, nested, sum_of, detached_value, by_final, by_if, waited;
static int reduced;
static void kinds() {
#pragma omp parallel num_threads(3)
#pragma omp single
    {
        for (int k = 0; k < 4; k++) {
#pragma omp task depend(inout : chained)
            chained++;
        }
#pragma omp task
        {
#pragma omp task
            nested++;
#pragma omp taskwait
            nested++;
        }
#pragma omp taskwait
        sum_of = chained + nested;
#pragma omp task depend(out : waited)
        waited = 1;
#pragma omp taskwait depend(in : waited)
        sum_of += waited;
#pragma omp taskgroup task_reduction(+ : reduced)
        {
            for (int k = 0; k < 4; k++) {
#pragma omp task in_reduction(+ : reduced)
                reduced += k;
            }
        }
        sum_of += reduced;
#pragma omp task final(1)
        by_final++;
#pragma omp task if (0)
        by_if++;
#pragma omp taskwait
        sum_of += by_final + by_if;
    }
}
static void detaches() {
    omp_event_handle_t event;
#pragma omp parallel num_threads(2)
#pragma omp single
    {
#pragma omp task detach(event)
        detached_value = 1;
#pragma omp task
        {
            omp_fulfill_event(event);
        }
#pragma omp taskwait
        detached_value++;
    }
}
static int reduces() {
    int n = 0;
#pragma omp parallel num_threads(3) reduction(task, + : n)
    {
#pragma omp single
        for (int k = 0; k < 4; k++) {
#pragma omp task in_reduction(+ : n)
            n += k;
        }
    }
    return n;
}
static int cancels() {
    int n = 0;
#pragma omp parallel num_threads(2)
    {
#pragma omp for
        for (int k = 0; k < 10; k++) {
#pragma omp atomic
            n++;
#pragma omp cancellation point for
        }
    }
    return n;
}
int main() {
    kinds();
    detaches();
    int n = reduces();
    std::printf("%d %d %d %d\n", sum_of, detached_value, n, cancels());
}
