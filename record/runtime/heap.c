/* The heap: where blocks begin and end, so that memory that is given out again is another variable. Interposes malloc,
 * free and their kin, new and delete of C++, and mmap, munmap and mremap. Must not call malloc or free, here and in
 * all other files: __libc_malloc and __libc_free are the library's. */
#define OF_HEAP
#include "heap.h"
#include "accesses.h"
#include "callers.h"
#include "deadlocks.h"
#include "events.h"
#include "follow.h"
#include "turns.h"

#define PAGE (size_t) sysconf(_SC_PAGESIZE)

/* A library that the thread is in without its turn, as one that waits or that made the thread, goes on without it. */
static int is_outside(void) { return !IDLE && !following && (me == NOBODY || me < MOST_THREADS) && holder != me; }

/* The library of OpenMP takes and gives back its own blocks in its barriers, also after the last thread came. To wait
 * for a turn there could be to wait for a thread that begins the next region, and that waits for this one. */
static int is_of_barrier(void) { return idle_in != NULL; }

static void *got(void *block, size_t n, u64 pc) {
    int outside = is_outside();
    if (is_of_barrier()) return block;
    if (block) put(ALLOCATED, (u64)block, n, pc);
    if (outside) give();
    return block;
}

void *malloc(size_t n) { return got(__libc_malloc(n), n, PC); }
void *calloc(size_t count, size_t n) { return got(__libc_calloc(count, n), count * n, PC); }
void *valloc(size_t n) { return got(__libc_memalign(PAGE, n), n, PC); }
void *pvalloc(size_t n) { return got(__libc_memalign(PAGE, (n + PAGE - 1) / PAGE * PAGE), n, PC); }
void *memalign(size_t align, size_t n) { return got(__libc_memalign(align, n), n, PC); }
void *aligned_alloc(size_t align, size_t n) { return got(__libc_memalign(align, n), n, PC); }
int posix_memalign(void **block, size_t align, size_t n) {
    if (!align || align % sizeof(void *) || (align & (align - 1))) return EINVAL;
    void *p = __libc_memalign(align, n);
    if (!p) return ENOMEM;
    u64 from = (u64)__builtin_return_address(0);
    *block = got(p, n, PC);
    if (is_hooked(from)) wrote(block, sizeof *block, from);
    return 0;
}

/* What the library of C++ gives back as its own counts say, which are not recorded. */
static __thread u8 is_counted;

/* Recorded before it is done: from then on another thread may be given the block. */
static inline void give_back(void *block, u64 pc) {
    int outside = is_outside();
    if (block && !is_counted && !is_of_barrier()) put(FREED, (u64)block, 0, pc);
    if (outside) give();
    __libc_free(block);
}
void free(void *block) { give_back(block, PC); }

/* An exception that threads share is given back by the last one that is done with it: its bytes, and what it has. */
#define COUNTED(name, types, given, passed_on) \
    __attribute__((weak)) void name given { \
        REAL(name, void, types); \
        u8 was = is_counted; \
        is_counted = 1; \
        real passed_on; \
        is_counted = was; \
    }
COUNTED(__cxa_free_exception, void *, (void *thrown), (thrown))
COUNTED(__cxa_end_catch, void, (void), ())
COUNTED(_ZNSt15__exception_ptr13exception_ptr10_M_releaseEv, void *, (void *pointer), (pointer))

/* What C++ calls for `new` and `delete`. Here the place is that of the program, and not one in the library of C++.
 * If the program has its own, or there is no memory, the library's does what it has to do. */
void *racebench_new(size_t n);
void racebench_delete(void *block);
void *_Znwm(size_t n) __attribute__((weak, alias("racebench_new")));
void _ZdlPv(void *block) __attribute__((weak, alias("racebench_delete")));
static int are_own(void) { return _Znwm == racebench_new && _ZdlPv == racebench_delete; }

#define NEW(attributes, name, real_name, given, passed_on, block) \
    attributes void *name given { \
        void *p = are_own() ? (block) : NULL; \
        if (p) return got(p, n, PC); \
        static void *(*real)given; \
        if (!real) real = (void *(*)given)next(real_name, NULL); \
        return real passed_on; \
    }
#define WEAK __attribute__((weak))
#define ROOM (n ? n : 1)
NEW(, racebench_new, "_Znwm", (size_t n), (n), __libc_malloc(ROOM))
NEW(WEAK, _Znam, "_Znam", (size_t n), (n), __libc_malloc(ROOM))
NEW(WEAK, _ZnwmRKSt9nothrow_t, "_ZnwmRKSt9nothrow_t", (size_t n, const void *t), (n, t), __libc_malloc(ROOM))
NEW(WEAK, _ZnamRKSt9nothrow_t, "_ZnamRKSt9nothrow_t", (size_t n, const void *t), (n, t), __libc_malloc(ROOM))
NEW(WEAK, _ZnwmSt11align_val_t, "_ZnwmSt11align_val_t", (size_t n, size_t a), (n, a), __libc_memalign(a, ROOM))
NEW(WEAK, _ZnamSt11align_val_t, "_ZnamSt11align_val_t", (size_t n, size_t a), (n, a), __libc_memalign(a, ROOM))

#define DELETE(attributes, name, real_name, given, passed_on) \
    attributes void name given { \
        static void(*real) given; \
        if (are_own()) return give_back(block, PC); \
        if (!real) real = (void(*) given)next(real_name, NULL); \
        real passed_on; \
    }
DELETE(, racebench_delete, "_ZdlPv", (void *block), (block))
DELETE(WEAK, _ZdaPv, "_ZdaPv", (void *block), (block))
DELETE(WEAK, _ZdlPvm, "_ZdlPvm", (void *block, size_t n), (block, n))
DELETE(WEAK, _ZdaPvm, "_ZdaPvm", (void *block, size_t n), (block, n))
DELETE(WEAK, _ZdlPvSt11align_val_t, "_ZdlPvSt11align_val_t", (void *block, size_t a), (block, a))
DELETE(WEAK, _ZdaPvSt11align_val_t, "_ZdaPvSt11align_val_t", (void *block, size_t a), (block, a))
DELETE(WEAK, _ZdlPvmSt11align_val_t, "_ZdlPvmSt11align_val_t", (void *block, size_t n, size_t a), (block, n, a))
DELETE(WEAK, _ZdaPvmSt11align_val_t, "_ZdaPvmSt11align_val_t", (void *block, size_t n, size_t a), (block, n, a))
DELETE(WEAK, _ZdlPvRKSt9nothrow_t, "_ZdlPvRKSt9nothrow_t", (void *block, const void *t), (block, t))
DELETE(WEAK, _ZdaPvRKSt9nothrow_t, "_ZdaPvRKSt9nothrow_t", (void *block, const void *t), (block, t))

/* A block that does not move keeps its name; one that moves is copied. Both ways are as many ticks, and both give
 * the block back: whether it moves is the library's choice, and the old pointer is no good either way. */
void *realloc(void *block, size_t n) {
    size_t before = block ? malloc_usable_size(block) : 0;
    if (!IDLE && block) keep_turn();
    void *p = __libc_realloc(block, n);
    if (block && (p || !n)) {
        if (p) put(READ, (u64)block, before < n ? before : n, PC);
        else pass_silently(PC);
        put(FREED, (u64)block, 0, PC);
    }
    if (p && p == block) {
        put(RESIZED, (u64)p, n, PC);
        pass_silently(PC);
        return p;
    }
    got(p, n, PC);
    if (block && p) put(WRITE, (u64)p, before < n ? before : n, PC);
    else if (block) pass_silently(PC);
    return p;
}

/* ---- memory of the system: what is mapped where something else was is another variable ---- */

extern void *__real_mmap(void *, size_t, int, int, int, off_t), *__real_mremap(void *, size_t, size_t, int, void *);

static void *mapped(void *at, size_t n, u64 pc) {
    if (at != MAP_FAILED && !IDLE) put(ALLOCATED, (u64)at, (n + PAGE - 1) / PAGE * PAGE, pc);
    return at;
}

void *__wrap_mmap(void *at, size_t n, int way, int how, int f, off_t from) {
    if (!IDLE) keep_turn();
    return mapped(__real_mmap(at, n, way, how, f, from), n, PC);
}
void *__wrap_mmap64(void *at, size_t n, int way, int how, int f, off_t from) {
    if (!IDLE) keep_turn();
    return mapped(__real_mmap(at, n, way, how, f, from), n, PC);
}

/* Memory that is given back is written, as by a free. */
extern int __real_munmap(void *, size_t);
int __wrap_munmap(void *at, size_t n) {
    access_(WRITE, at, n, PC);
    return __real_munmap(at, n);
}

/* Memory that does not move keeps its name. The old range of memory that moved is given back. */
void *__wrap_mremap(void *at, size_t before, size_t n, int how, ...) {
    va_list words;
    va_start(words, how);
    void *wanted = how & MREMAP_FIXED ? va_arg(words, void *) : NULL;
    va_end(words);
    if (!IDLE) keep_turn();
    void *p = __real_mremap(at, before, n, how, wanted);
    size_t kept = p == MAP_FAILED ? before : p != at ? 0 : n;
    wrote((char *)at + kept, kept < before ? before - kept : 0, PC);
    if (p != at) return mapped(p, n, PC);
    put(RESIZED, (u64)p, n, PC);
    return p;
}
