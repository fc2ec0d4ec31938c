// Tasks of OpenMP that race if two threads of the team run them: of two makers, of one maker, and of a loop.
#include <cstdio>
static volatile int by_two, by_one, by_loop, by_group;
int main() {
#pragma omp parallel num_threads(2)
    {
#pragma omp task
        by_two++; // RACE two
    }
#pragma omp parallel num_threads(3)
#pragma omp single
    for (int k = 0; k < 4; k++) {
#pragma omp task
        by_one++; // RACE one
    }
#pragma omp parallel num_threads(3)
#pragma omp single
#pragma omp taskloop grainsize(1)
    for (int k = 0; k < 4; k++) {
        by_loop++; // RACE loop
    }
#pragma omp parallel num_threads(2)
#pragma omp single
    {
#pragma omp taskgroup
        for (int k = 0; k < 4; k++) {
#pragma omp task untied
            by_group++; // RACE group
        }
        by_group = 0;
    }
    std::puts(by_group ? "lost" : "done");
}
