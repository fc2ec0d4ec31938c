/* The place in the program of a call that a library made: `std::thread::join` of the C++ library calls `pthread_join`,
 * and the line is the one of the program that called `join`. Interposes nothing. Each hook calls it for its place, so
 * it must not put a record or wait; while it unwinds the stack, `inside` is set. */
#define OF_CALLERS
#include "callers.h"
#include "plan.h"
#include <unwind.h>

#define MOST_RANGES 64
/* The programs and libraries that have hooks. */
static struct range hooked[MOST_RANGES];
static u32 hooked_count;

static int is_hooked(u64 pc) {
    for (u32 k = 0; k < hooked_count; k++)
        if (pc - hooked[k].start < hooked[k].size) return 1;
    return 0;
}

/* Whether code with hooks is in this memory, or was. */
static int had_hooks(u64 start, u64 end) {
    for (u32 k = 0; k < hooked_count; k++)
        if (hooked[k].start - start < end - start) return 1;
    return 0;
}

/* The part of a program or library that a place is in. */
static struct range part_of(const struct dl_phdr_info *info, u64 pc) {
    for (int i = 0; i < info->dlpi_phnum; i++) {
        const ElfW(Phdr) *p = &info->dlpi_phdr[i];
        u64 start = info->dlpi_addr + p->p_vaddr;
        if (p->p_type == PT_LOAD && pc - start < p->p_memsz) return (struct range){start, p->p_memsz};
    }
    return (struct range){0, 0};
}

static int note_range(struct dl_phdr_info *info, size_t size, void *pc) {
    (void)size;
    struct range part = part_of(info, *(u64 *)pc);
    if (part.size && hooked_count < MOST_RANGES) hooked[hooked_count++] = part;
    return !!part.size;
}

/* The code of the C library. */
static struct range c_library;
static int note_c_library(struct dl_phdr_info *info, size_t size, void *none) {
    (void)size, (void)none;
    c_library = part_of(info, (u64)__libc_free);
    return !!c_library.size;
}

/* Libraries whose own accesses need no record: those of C, C++ and OpenMP. */
static const char *const trusted_names[] = {"libc.",       "libstdc++.", "libc++", "libm.",  "libgcc_s.", "libgomp.",
                                            "libpthread.", "libatomic.", "libdl.", "librt.", "ld-linux"};
static struct range trusted[MOST_RANGES];
static u32 trusted_count;

static int note_trusted(struct dl_phdr_info *info, size_t size, void *none) {
    (void)size, (void)none;
    const char *slash = strrchr(info->dlpi_name, '/'), *name = slash ? slash + 1 : info->dlpi_name;
    for (u32 k = 0; k < sizeof trusted_names / sizeof *trusted_names; k++) {
        if (strncmp(name, trusted_names[k], strlen(trusted_names[k]))) continue;
        for (int i = 0; i < info->dlpi_phnum && trusted_count < MOST_RANGES; i++) {
            const ElfW(Phdr) *p = &info->dlpi_phdr[i];
            if (p->p_type != PT_LOAD || !(p->p_flags & PF_X)) continue;
            trusted[trusted_count++] = (struct range){info->dlpi_addr + p->p_vaddr, p->p_memsz};
        }
    }
    return 0;
}

/* Whether code is in a library that has no hooks, and that is not trusted. */
static int is_foreign(u64 pc) {
    if (pc - main_start < main_size || is_hooked(pc)) return 0;
    for (u32 k = 0; k < trusted_count; k++)
        if (pc - trusted[k].start < trusted[k].size) return 0;
    return 1;
}

/* Whether the lock call that this thread is in was made by such a library. */
static __thread u8 by_library;

/* A part with hooks has code here. */
static void note_hooked(u64 pc) {
    u8 was = inside;
    inside = 1;
    if (!is_hooked(pc)) dl_iterate_phdr(note_range, &pc);
    inside = was;
}

/* The program's own code is what most places are in. */
static void note_program(u64 pc) {
    note_hooked(pc);
    for (u32 k = 0; k < hooked_count; k++)
        if (pc - hooked[k].start < hooked[k].size) main_start = hooked[k].start, main_size = hooked[k].size;
}

struct walk {
    u64 from, found;
    int steps;
};
#define MOST_STEPS 64

/* The calls before `from` are the recorder's own. */
static _Unwind_Reason_Code step(struct _Unwind_Context *context, void *data) {
    struct walk *w = data;
    u64 pc = (u64)_Unwind_GetIP(context);
    if (w->from) {
        if (pc == w->from) w->from = 0;
    } else if (is_hooked(pc)) {
        w->found = pc;
        return _URC_NORMAL_STOP;
    }
    return ++w->steps < MOST_STEPS ? _URC_NO_REASON : _URC_NORMAL_STOP;
}

static __thread struct library_call library_call;
static void end_library_call(struct library_call *before) { library_call = *before; }

/* The first place with hooks around a place in a library; the place itself if there is no such place. */
static __attribute__((noinline)) u64 caller_in_program(u64 pc) {
    if (is_hooked(pc)) return pc;
    if (library_call.pc && library_call.depth == depth) return library_call.pc;
    int error = errno;
    struct walk w = {pc, pc, 0};
    inside = 1;
    _Unwind_Backtrace(step, &w);
    inside = 0;
    errno = error;
    return w.found;
}

/* Where a function was called: what the library of C++ calls has hooks too, such as those of std::string. The C library
 * calls threads, and what it sorts by again and again: there the place is its own. */
static u64 site_of_call(u64 site) {
    if (library_call.pc && library_call.depth == depth) return library_call.pc;
    return site - c_library.start < c_library.size ? site : in_program(site);
}
