/* Two threads read into one buffer by an unlocked call of their own streams; the clean twin has a buffer for each. */
#include "pair.h"
static char buffers[2][16];

static void look(int number) {
    FILE *file = fopen("/proc/self/status", "r");
    need(fgets_unlocked(buffers[IF_RACY(0 *) number], 8, file) != NULL); /* RACE */
    fclose(file);
}

THREAD(first) {
    look(0);
    return argument;
}

THREAD(second) {
    look(1);
    return argument;
}

int main(void) {
    run_both(first, second);
    return buffers[0][0] == 'x';
}
