/* mremap cuts memory off that the other thread still reads; the clean reader looks first, under a mutex. */
#include "pair.h"
#include <sys/mman.h>
#define PAGE 4096
static pthread_mutex_t mutex = PTHREAD_MUTEX_INITIALIZER;
static char *memory;
static int is_cut;

THREAD(reads) {
    LOCK(mutex);
    if (!is_cut) {
        IF_RACY(UNLOCK(mutex));
        need(memory[PAGE + 7] != 9); /* RACE */
        IF_RACY(LOCK(mutex));
    }
    UNLOCK(mutex);
    return argument;
}

THREAD(cuts) {
    usleep(10000);
    LOCK(mutex);
    is_cut = 1;
    need(mremap(memory, 2 * PAGE, PAGE, 0) == memory); /* RACE */
    UNLOCK(mutex);
    return argument;
}

int main(void) {
    memory = mmap(NULL, 2 * PAGE, PROT_READ | PROT_WRITE, MAP_PRIVATE | MAP_ANONYMOUS, -1, 0);
    need(memory != MAP_FAILED);
    run_both(reads, cuts);
    return 0;
}
