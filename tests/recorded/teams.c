/* Teams of OpenMP: barriers, loops, critical sections, locks, values that one thread gives to all, teams of other sizes and
 * teams in teams. A seed is one recording. */
#include <omp.h>

static volatile int last, counted, given, made[40];

int main(void) {
    omp_lock_t lock;
    omp_init_lock(&lock);
    omp_set_max_active_levels(2);
#pragma omp parallel for schedule(dynamic, 1) num_threads(4)
    for (int i = 0; i < 40; i++) {
        made[i] = omp_get_thread_num();
        last = i; /* RACE */
    }
    for (int round = 0; round < 4; round++) {
#pragma omp parallel num_threads(2 + round % 3)
        {
            int own = round;
#pragma omp barrier
#pragma omp critical(counting)
            counted++;
#pragma omp single copyprivate(own)
            own = 2 * round;
            omp_set_lock(&lock);
            given = own;
            omp_unset_lock(&lock);
#pragma omp sections
            {
#pragma omp section
                made[0] = 1;
#pragma omp section
                made[1] = 1;
            }
        }
    }
#pragma omp parallel num_threads(2)
    {
#pragma omp parallel num_threads(2)
        {
#pragma omp critical(counting)
            counted++;
#pragma omp barrier
        }
    }
    return 0;
}
