/* OPENMP
 * A loop raises a counter in order. The racy twin does so outside of the ordered part. */
#include "pair.h"
static int counter;

int main(void) {
#pragma omp parallel for ordered schedule(static, 1) num_threads(2)
    for (int k = 0; k < 4; k++) {
        IF_RACY(counter++;) /* RACE */
#pragma omp ordered
        {
            IF_CLEAN(counter++;)
        }
    }
    return counter == 9;
}
