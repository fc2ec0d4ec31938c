/* OPENMP
 * Two loops, the second of which reads what the first wrote. The racy twin has no barrier between. */
#include "pair.h"
static int numbers[8], sums[8];

int main(void) {
#pragma omp parallel num_threads(2)
    {
#ifdef RACY
#pragma omp for schedule(static, 1) nowait
#else
#pragma omp for schedule(static, 1)
#endif
        for (int k = 0; k < 8; k++) numbers[k] = k; /* RACE */
#pragma omp for schedule(static, 1)
        for (int k = 0; k < 8; k++) sums[k] = numbers[7 - k]; /* RACE */
    }
    return sums[0] == 9;
}
