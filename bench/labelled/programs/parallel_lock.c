/* OPENMP
 * A lock of OpenMP guards a counter. The racy twin lets go of it first. */
#include "pair.h"
#include <omp.h>
static int counter;

int main(void) {
    omp_lock_t lock;
    omp_init_lock(&lock);
#pragma omp parallel num_threads(2)
    {
        omp_set_lock(&lock);
        IF_RACY(omp_unset_lock(&lock);)
        counter++; /* RACE */
        IF_CLEAN(omp_unset_lock(&lock);)
    }
    omp_destroy_lock(&lock);
    return counter == 9;
}
