/* OPENMP
 * A task computes a value. The racy maker does not wait for it. */
#include "pair.h"
static int value, seen;

int main(void) {
#pragma omp parallel num_threads(2)
#pragma omp single
    {
#pragma omp task
        value = 4; /* RACE */
#ifndef RACY
#pragma omp taskwait
#endif
        seen = value; /* RACE */
    }
    return seen == 9;
}
