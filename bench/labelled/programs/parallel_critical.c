/* OPENMP
 * A critical section guards a counter. The racy twin has two of other names. */
#include "pair.h"

int main(void) {
    int counter = 0;
#pragma omp parallel sections num_threads(2)
    {
#pragma omp section
        {
#pragma omp critical(one)
            counter++; /* RACE */
        }
#pragma omp section
        {
#ifdef RACY
#pragma omp critical(two)
#else
#pragma omp critical(one)
#endif
            counter++; /* RACE */
        }
    }
    return counter == 9;
}
