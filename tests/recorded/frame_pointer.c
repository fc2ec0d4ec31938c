/* The register of the frame pointer holds another value, as in code that is compiled without frame pointers. `share`
 * begins with each such value in it, and lets another thread use its frame. */
#include <pthread.h>
#include <stdlib.h>

#if defined __x86_64__
/* Calls a function with a value in the register. */
void call_with(long value, void (*function)(void));
__asm__(".text\n"
        ".globl call_with\n"
        ".type call_with, @function\n"
        "call_with:\n"
        "    .cfi_startproc\n"
        "    push %rbp\n"
        "    .cfi_adjust_cfa_offset 8\n"
        "    .cfi_rel_offset %rbp, 0\n"
        "    mov %rdi, %rbp\n"
        "    call *%rsi\n"
        "    pop %rbp\n"
        "    .cfi_adjust_cfa_offset -8\n"
        "    .cfi_restore %rbp\n"
        "    ret\n"
        "    .cfi_endproc\n"
        ".size call_with, .-call_with\n");
#else
static void call_with(long value, void (*function)(void)) {
    (void)value;
    function();
}
#endif

static void *count(void *p) {
    int *number = p;
    ++*number; // RACE
    return NULL;
}

static void share(void) {
    pthread_t thread;
    int number = 0;
    if (pthread_create(&thread, NULL, count, &number)) exit(1);
    number = 1; // RACE
    pthread_join(thread, NULL);
}

/* From the first three one or two steps more come to address 0 or past it. At the others there is no frame. */
static const long values[] = {-8, -16, -24, 0, 8, 1};

int main(void) {
    for (unsigned k = 0; k < sizeof values / sizeof *values; k++) call_with(values[k], share);
    return 0;
}
