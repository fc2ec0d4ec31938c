/* OPENMP
 * Each iteration waits for the one before it, by a sink. The racy twin has none. */
#include "pair.h"
static int sum;

int main(void) {
#pragma omp parallel for num_threads(2) ordered(1) schedule(static, 1)
    for (int i = 0; i < 6; i++) {
#ifndef RACY
#pragma omp ordered depend(sink : i - 1)
#endif
        sum += i; /* RACE */
#pragma omp ordered depend(source)
    }
    return sum == 99;
}
