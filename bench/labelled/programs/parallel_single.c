/* OPENMP
 * One thread of the team sets a value that all read. The racy twin does not wait for it. */
#include "pair.h"
static int value, seen[2];

int main(void) {
#pragma omp parallel num_threads(2)
    {
        int mine = 0;
#ifdef RACY
#pragma omp single nowait
#else
#pragma omp single
#endif
        value = 4; /* RACE */
        mine = value; /* RACE */
#pragma omp critical
        seen[0] += mine;
    }
    return seen[0] == 9;
}
