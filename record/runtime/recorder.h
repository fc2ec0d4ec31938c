/* What all files of the recorder share. all.c makes one file of them, which is compiled without the sanitizer's hooks and
 * linked into the recorded program in place of the sanitizer's library. All that they share is static there, so that no
 * name of theirs meets one of the program. X.h declares what X.c shares. Each file also compiles by itself, which
 * tools/lint tries: what others define is extern then.
 *
 * Everywhere: memory comes from __libc_malloc, a system call goes by raw_syscall, and `inside` is set around a call of a
 * library that may come back by a hook. */
#pragma once
#define _GNU_SOURCE
#include <dlfcn.h>
#include <errno.h>
#include <fcntl.h>
#include <limits.h>
#include <linux/futex.h>
#include <link.h>
#include <malloc.h>
#include <netinet/in.h>
#include <poll.h>
#include <pthread.h>
#include <sched.h>
#include <search.h>
#include <semaphore.h>
#include <signal.h>
#include <spawn.h>
#include <stdarg.h>
#include <stddef.h>
#include <stdio.h>
#include <stdlib.h>
#include <string.h>
#include <sys/epoll.h>
#include <sys/file.h>
#include <sys/eventfd.h>
#include <sys/mman.h>
#include <sys/resource.h>
#include <sys/select.h>
#include <sys/signalfd.h>
#include <sys/socket.h>
#include <sys/stat.h>
#include <sys/statfs.h>
#include <sys/syscall.h>
#include <sys/time.h>
#include <sys/uio.h>
#include <sys/un.h>
#include <sys/wait.h>
#include <threads.h>
#include <time.h>
#include <ucontext.h>
#include <unistd.h>

#include "format.h"
#include "reading.h"

typedef unsigned __int128 u128;

/* How a header declares what another file defines. */
#ifdef ONE_FILE
#define OTHERS static
#else
#define OTHERS extern
/* A file does not use everything that it defines for the other files. all.c is compiled with these warnings. */
#pragma GCC diagnostic ignored "-Wunused-function"
#pragma GCC diagnostic ignored "-Wunused-variable"
#pragma GCC diagnostic ignored "-Wunused-const-variable"
#endif

/* Threads beyond this number run, but free of the token and unrecorded. */
#define MOST_THREADS 16384
#define NOBODY 0xffffffffu
#define NO_PLACE ULLONG_MAX
/* A hook does nothing before the start, in a child process, and inside the recorder itself. */
#define IDLE (!on || inside)

static struct head *head;
static volatile int on;
static u32 one_in = 40;
/* Volatile: the C library calls back into the recorder, as into malloc, although its headers say that it does not. */
static __thread volatile u8 inside;
static __thread u32 me = NOBODY;
/* The clock of this thread: the hooks that it passed, and the blocks that it gave back since. */
static __thread u64 tick;
static __thread u32 sub;
/* How many calls of this thread the hooks saw begin, and not end. */
static __thread u32 depth;
/* The stack of this thread. */
static __thread u64 stack_start, stack_size;
/* This thread may be cancelled wherever it is; while it is in the recorder it is not: it could have its lock. */
static __thread u8 cancels_at_once, holds_cancel;
/* The program has made a thread. What the environment and what is converted of it says is often looked at before, and
 * such a read can't race: it is no hook, so that a run with another environment may be followed. */
static volatile u8 has_threads;
/* Where the program begins a region of OpenMP, while the library makes threads for it. */
static __thread u64 making_team;
/* The team of OpenMP in whose barrier this thread waits without a task. */
static __thread struct region *idle_in;

/* The heap of the C library, below the recorder's. */
extern void *__libc_malloc(size_t), *__libc_calloc(size_t, size_t), *__libc_realloc(void *, size_t),
    *__libc_memalign(size_t, size_t);
extern void __libc_free(void *);

/* Sets of signals in the C library, below the recorder's. */
extern int __real_pthread_sigmask(int, const sigset_t *, sigset_t *), __real_sigemptyset(sigset_t *),
    __real_sigfillset(sigset_t *), __real_sigaddset(sigset_t *, int);

#if defined __x86_64__
static inline long by_kernel(long number, long a, long b, long c, long d, long e, long f) {
    long answer;
    register long r10 __asm__("r10") = d, r8 __asm__("r8") = e, r9 __asm__("r9") = f;
    __asm__ volatile("syscall"
                     : "=a"(answer)
                     : "a"(number), "D"(a), "S"(b), "d"(c), "r"(r10), "r"(r8), "r"(r9)
                     : "rcx", "r11", "memory");
    return answer;
}
#elif defined __aarch64__
static inline long by_kernel(long number, long a, long b, long c, long d, long e, long f) {
    register long x8 __asm__("x8") = number, x0 __asm__("x0") = a, x1 __asm__("x1") = b, x2 __asm__("x2") = c;
    register long x3 __asm__("x3") = d, x4 __asm__("x4") = e, x5 __asm__("x5") = f;
    __asm__ volatile("svc 0" : "+r"(x0) : "r"(x8), "r"(x1), "r"(x2), "r"(x3), "r"(x4), "r"(x5) : "memory");
    return x0;
}
#else
#error "the recorder knows the system calls of x86-64 and of aarch64"
#endif

/* The recorder's own calls of the system do not go by the function of the C library, which it takes. */
static long raw_syscall(long number, ...) {
    va_list words;
    va_start(words, number);
    long a = va_arg(words, long), b = va_arg(words, long), c = va_arg(words, long);
    long d = va_arg(words, long), e = va_arg(words, long), f = va_arg(words, long);
    va_end(words);
    long answer = by_kernel(number, a, b, c, d, e, f);
    if ((u64)answer < (u64)-4095) return answer;
    errno = (int)-answer;
    return -1;
}
#define syscall raw_syscall

/* Headers say that some pointers are never NULL, and the compiler drops a test for that. It keeps this one. */
static inline int is_there(const volatile void *p) {
    __asm__("" : "+r"(p));
    return p != NULL;
}

#define CLOCK(tick, sub) ((tick) << 16 | (sub))
/* A function that not every program is linked with. */
#define WEAKLY extern __attribute__((weak))
