/* Two threads read a file into one buffer; the clean twin has a buffer for each. */
#include "pair.h"
static char buffers[2][16];

static void look(int number) {
    int file = open("/proc/self/stat", O_RDONLY);
    need(pread(file, buffers[IF_RACY(0 *) number], 8, 0) > 0); /* RACE */
    close(file);
}

THREAD(first) {
    look(0);
    return argument;
}

THREAD(second) {
    look(1);
    return argument;
}

int main(void) {
    run_both(first, second);
    return buffers[0][0] == 'x';
}
