/* Memory is unmapped while the other thread may read it; the clean twin unmaps it after the join. */
#include "pair.h"
#include <sys/mman.h>
static int *memory;

THREAD(reads) {
    return *memory == 9 ? argument : NULL; /* RACE */
}

THREAD(unmaps) {
    IF_RACY(usleep(1000);)
    IF_RACY(munmap(memory, 4096);) /* RACE */
    return argument;
}

int main(void) {
    memory = mmap(NULL, 4096, PROT_READ | PROT_WRITE, MAP_PRIVATE | MAP_ANONYMOUS, -1, 0);
    need(memory != MAP_FAILED);
    run_both(reads, unmaps);
    IF_CLEAN(munmap(memory, 4096));
    return 0;
}
