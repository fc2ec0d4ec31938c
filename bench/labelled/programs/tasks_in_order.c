/* OPENMP
 * Two tasks depend on one value. The racy second one does not say so. */
#include "pair.h"
static int value, seen;

int main(void) {
#pragma omp parallel num_threads(2)
#pragma omp single
    {
#pragma omp task depend(out : value)
        value = 4; /* RACE */
#ifdef RACY
#pragma omp task
#else
#pragma omp task depend(in : value)
#endif
        seen = value; /* RACE */
    }
    return seen == 9;
}
