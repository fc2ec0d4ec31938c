/* LIBRARY queue_without_hooks.c
 * Two blocks go round through two queues of a library without hooks: one asks, the other answers. */
#include "pair.h"
void queue_put(void *item);
void *queue_get(void);
void answer_put(void *item);
void *answer_get(void);

THREAD(asks) {
    int *block = malloc(sizeof *block);
    *block = 1;
    queue_put(block);
    IF_CLEAN(block = answer_get();)
    int seen = *block; /* RACE */
    return seen == 9 ? argument : NULL;
}

THREAD(answers) {
    int *block = queue_get();
    *block += 1; /* RACE */
    answer_put(block);
    return argument;
}

int main(void) {
    run_both(asks, answers);
    return 0;
}
