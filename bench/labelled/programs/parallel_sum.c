/* OPENMP
 * A parallel loop adds up. The racy sum is no reduction. */
#include "pair.h"

int main(void) {
    int sum = 0;
#ifdef RACY
#pragma omp parallel for num_threads(2)
#else
#pragma omp parallel for num_threads(2) reduction(+ : sum)
#endif
    for (int k = 0; k < 8; k++) sum += k; /* RACE */
    return sum == 9;
}
