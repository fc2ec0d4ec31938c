/* A lock of the program's own that waits by the kernel's futex. The racy one is let go before the last write. */
#include "pair.h"
#include <linux/futex.h>
#include <stdatomic.h>
#include <sys/syscall.h>
static atomic_int word;
static int value;

static void take(void) {
    while (atomic_exchange(&word, 1)) syscall(SYS_futex, &word, FUTEX_WAIT_PRIVATE, 1, NULL, NULL, 0);
}

static void let_go(void) {
    atomic_store(&word, 0);
    syscall(SYS_futex, &word, FUTEX_WAKE_PRIVATE, 1, NULL, NULL, 0);
}

THREAD(changes) {
    take();
    IF_RACY(let_go());
    value++; /* RACE */
    IF_CLEAN(let_go());
    return argument;
}

int main(void) {
    run_both(changes, changes);
    return value == 9;
}
