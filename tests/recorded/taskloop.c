/* Tasks that share out loops: each loop comes after the one before, since a taskloop waits for its tasks, as a taskwait
 * does for those without a group. The maker does not go on before another thread has taken a task. */
#include <omp.h>

static int first[32], second[32], third[32], helped[3];

static void share(int loop, int maker) {
    if (omp_get_thread_num() != maker) __atomic_store_n(&helped[loop], 1, __ATOMIC_RELAXED);
    while (!__atomic_load_n(&helped[loop], __ATOMIC_RELAXED)) {}
}

int main(void) {
#pragma omp parallel num_threads(3)
#pragma omp single
    {
        int maker = omp_get_thread_num();
        unsigned long long all = 32;
#pragma omp taskloop grainsize(4)
        for (int k = 0; k < 32; k++) {
            share(0, maker);
            first[k] = k;
        }
#pragma omp taskloop nogroup grainsize(4)
        for (unsigned long long k = 0; k < all; k++) {
            share(1, maker);
            second[k] = first[31 - k];
        }
#pragma omp taskwait
        int sum = 0;
#pragma omp taskloop num_tasks(5) reduction(+ : sum)
        for (int k = 0; k < 32; k++) {
            share(2, maker);
            sum += third[k] = second[31 - k];
        }
        third[0] += sum;
    }
    return third[0] != 496;
}
