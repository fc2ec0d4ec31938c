/* OPENMP
 * An atomic addition of OpenMP beside an update that, in the racy twin, is none. */
#include "pair.h"
static int counter;

int main(void) {
#pragma omp parallel sections num_threads(2)
    {
#pragma omp section
        {
#pragma omp atomic
            counter += 1; /* RACE */
        }
#pragma omp section
        {
#ifndef RACY
#pragma omp atomic
#endif
            counter += 2; /* RACE */
        }
    }
    return counter == 9;
}
