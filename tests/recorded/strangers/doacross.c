/* Loops of OpenMP with an order: iterations that wait for others in one and two dimensions, of each schedule, and ordered
 * parts of loops with a count that has no sign. What is written after the source is a race. */
#include <stdio.h>
#define N 6
static int table[N][N], made[N], sums[N], in_turn[2 * N], turns;
static volatile int after;

static void waits_for_two(void) {
#pragma omp parallel for ordered(2) schedule(static, 1) num_threads(3)
    for (int i = 1; i < N; i++)
        for (int j = 1; j < N; j++) {
#pragma omp ordered depend(sink : i - 1, j) depend(sink : i, j - 1)
            table[i][j] = table[i - 1][j] + table[i][j - 1];
#pragma omp ordered depend(source)
            after = i; /* RACE */
        }
}

static void waits_for_one(void) {
#pragma omp parallel num_threads(3)
    {
#pragma omp for ordered(1) schedule(dynamic, 1) nowait
        for (int i = 0; i < N; i++) {
            made[i] = i;
#pragma omp ordered depend(sink : i - 1)
            if (i) sums[i] = sums[i - 1] + made[i - 1];
#pragma omp ordered depend(source)
        }
#pragma omp for ordered(1) schedule(guided)
        for (long i = 0; i < N; i++) {
#pragma omp ordered depend(sink : i - 2)
            if (i > 1) table[0][i] += table[0][i - 2];
#pragma omp ordered depend(source)
        }
    }
}

static void comes_in_turn(void) {
#pragma omp parallel for ordered schedule(dynamic, 1) num_threads(3)
    for (unsigned long long i = 0; i < N; i++) {
#pragma omp ordered
        in_turn[turns++] = (int)i;
    }
#pragma omp parallel for ordered schedule(guided) num_threads(3)
    for (unsigned long long i = N; i > 0; i--) {
#pragma omp ordered
        in_turn[turns++] = (int)i;
    }
}

int main(void) {
    for (int k = 0; k < N; k++) table[k][0] = table[0][k] = 1;
    waits_for_two();
    waits_for_one();
    comes_in_turn();
    printf("%d %d %d\n", table[N - 1][N - 1], sums[N - 1], table[0][N - 1]);
    for (int k = 0; k < turns; k++) printf("%d ", in_turn[k]);
    puts("");
    return 0;
}
