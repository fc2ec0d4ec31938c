/* Calls that are left by longjmp, of which the hooks see no end. Interposes longjmp, _longjmp and siglongjmp. Must not
 * put a record once the calls are left: it would have the stack that is jumped to. */
#include "callers.h"
#include "events.h"
#include "frames.h"
#include <setjmp.h>

#if defined __x86_64__
/* Which word has the stack after the jump: the C library keeps it turned and mixed with a word of the thread. */
#define STACK_IN_JUMP 6
static u64 stack_after(const struct __jmp_buf_tag *to) {
    u64 kept = (u64)to->__jmpbuf[STACK_IN_JUMP], mixed = kept >> 17 | kept << 47, word;
    __asm__("mov %%fs:0x30, %0" : "=r"(word));
    return mixed ^ word;
}
#else
static u64 stack_after(const struct __jmp_buf_tag *to) {
    (void)to;
    return 0;
}
#endif

/* Calls whose frames lie below the stack after the jump are over. A jump from one stack to another leaves none. */
static void leave_calls(const struct __jmp_buf_tag *to, u64 pc) {
    u64 after = stack_after(to), here = (u64)__builtin_frame_address(0);
    if (IDLE || !calls || here - stack_start >= stack_size || after - stack_start >= stack_size) return;
    while (depth && (depth > CALLS || calls[depth - 1].stack + 2 * sizeof(u64) < after)) {
        if (is_noted_end()) note_end(pc);
        depth--;
    }
    if (depth <= library_call.depth) library_call.pc = 0;
}

#define JUMPS(name) \
    __attribute__((noreturn)) void name(struct __jmp_buf_tag to[1], int value) { \
        REAL(name, void, struct __jmp_buf_tag *, int); \
        leave_calls(to, PC); \
        real(to, value); \
        __builtin_unreachable(); \
    }
JUMPS(longjmp)
JUMPS(_longjmp)
JUMPS(siglongjmp)
