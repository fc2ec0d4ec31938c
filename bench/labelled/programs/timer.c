/* A timer calls a function in a thread. The racy maker sets the value after the timer. */
#include "pair.h"
#include <signal.h>
#include <time.h>
static int setting;
static sem_t done;

static void rings(union sigval none) {
    (void)none;
    if (setting == 9) abort(); /* RACE */
    sem_post(&done);
}

int main(void) {
    struct sigevent event = {.sigev_notify = SIGEV_THREAD, .sigev_notify_function = rings};
    struct itimerspec soon = {.it_value = {.tv_nsec = 5000000}};
    timer_t timer;
    sem_init(&done, 0, 0);
    need(!timer_create(CLOCK_MONOTONIC, &event, &timer));
    IF_CLEAN(setting = 1;)
    need(!timer_settime(timer, 0, &soon, NULL));
    IF_RACY(setting = 1;) /* RACE */
    sem_wait(&done);
    return 0;
}
