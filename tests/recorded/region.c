/* OpenMP with a parallel region and nothing else. */
#include <stdio.h>

static int counted;

int main(void) {
#pragma omp parallel num_threads(3)
    counted++; /* RACE */
    printf("%d\n", counted);
    return 0;
}
