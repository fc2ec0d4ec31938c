/* Tasks of OpenMP that end when their event is fulfilled, by a thread of the system that their body told; tasks that
 * read and write what they depend on; a loop whose tasks sum up. Two tasks that read one variable are not ordered. */
#include <omp.h>
#include <pthread.h>
#include <stdio.h>
static volatile int answer, filled, known, by_readers, sum_of, last, more[20];
static int total;

static void *answers(void *p) {
    answer = 42;
    omp_fulfill_event((omp_event_handle_t)(unsigned long)p);
    return p;
}

static void asks(pthread_t *t) {
    omp_event_handle_t event;
#pragma omp task detach(event) depend(out : answer)
    pthread_create(t, NULL, answers, (void *)(unsigned long)event);
#pragma omp task depend(in : answer)
    sum_of = answer;
#pragma omp taskwait
    sum_of += answer;
}

static void depends(void) {
    omp_depend_t kept;
#pragma omp depobj(kept) depend(inout : filled)
#pragma omp task depend(out : filled)
    filled = 1;
#pragma omp task depend(depobj : kept)
    filled++;
    for (int k = 0; k < 3; k++) {
#pragma omp task depend(in : filled)
        by_readers = filled + k; // RACE
    }
#pragma omp task depend(inout : filled)
    known = filled + by_readers * 0;
#pragma omp task depend(iterator(k = 0 : 20), out : more[k])
    for (int k = 0; k < 20; k++) more[k] = k;
#pragma omp task depend(in : more[19])
    last = more[19];
#pragma omp taskwait
#pragma omp depobj(kept) destroy
}

int main(void) {
    pthread_t t;
#pragma omp parallel num_threads(3)
#pragma omp single
    asks(&t);
    pthread_join(t, NULL);
#pragma omp parallel num_threads(3)
#pragma omp single
    depends();
#pragma omp parallel num_threads(3)
    {
#pragma omp for reduction(task, + : total)
        for (int k = 0; k < 6; k++) {
#pragma omp task in_reduction(+ : total)
            total += k;
        }
#pragma omp critical
        known += total;
    }
    printf("%d %d %d %d\n", sum_of, known, last, total);
}
