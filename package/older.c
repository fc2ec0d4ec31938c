/* What the program takes of the C library 2.34, for systems with 2.28 to 2.33. tools/older puts it beside the program.
 *
 * The start code of the toolchain hands over no function that runs the constructors, since 2.34 finds them itself. It
 * also asks the C library, from 2.33 on, what the processor can do, and from 2.30 on what is in a folder. */
#define _GNU_SOURCE
#include <dlfcn.h>
#include <link.h>
#include <stddef.h>
#include <sys/syscall.h>
#include <sys/types.h>
#include <unistd.h>

__asm__(".symver dlvsym, dlvsym@GLIBC_2.2.5");

struct leaf {
    unsigned cpuid[4], active[4];
};

/* What the processor says of leaf 1, the first of the index, or of leaf 0x80000001, the third. */
const struct leaf *__x86_get_cpuid_feature_leaf(unsigned index) {
    static struct leaf leaves[2];
    struct leaf *told = &leaves[index != 0];
    unsigned a = index == 0 ? 1 : 0x80000001, b, c = 0, d;
    __asm__ volatile("cpuid" : "+a"(a), "=b"(b), "+c"(c), "=d"(d));
    told->cpuid[0] = told->active[0] = a;
    told->cpuid[1] = told->active[1] = b;
    told->cpuid[2] = told->active[2] = c;
    told->cpuid[3] = told->active[3] = d;
    return told;
}

/* Reads the entries of a folder, which the C library has from 2.30 on. */
ssize_t getdents64(int folder, void *entries, size_t size) { return syscall(SYS_getdents64, folder, entries, size); }

typedef int started(int, char **, char **);
typedef void constructor(int, char **, char **);

static int first(struct dl_phdr_info *info, size_t size, void *found) {
    (void)size;
    *(struct dl_phdr_info *)found = *info;
    return 1;
}

/* Runs the constructors of the program, which is the first that the loader lists. */
static int construct(int argc, char **argv, char **environment) {
    struct dl_phdr_info program;
    constructor **list = NULL;
    size_t count = 0;
    dl_iterate_phdr(first, &program);
    for (int k = 0; k < program.dlpi_phnum; k++) {
        if (program.dlpi_phdr[k].p_type != PT_DYNAMIC) continue;
        const ElfW(Dyn) *entry = (const void *)(program.dlpi_addr + program.dlpi_phdr[k].p_vaddr);
        for (; entry->d_tag != DT_NULL; entry++) {
            if (entry->d_tag == DT_INIT_ARRAY) list = (constructor **)(program.dlpi_addr + entry->d_un.d_ptr);
            if (entry->d_tag == DT_INIT_ARRAYSZ) count = entry->d_un.d_val / sizeof *list;
        }
    }
    for (size_t k = 0; k < count; k++) list[k](argc, argv, environment);
    return 0;
}

typedef int start(started *, int, char **, started *, void (*)(void), void (*)(void), void *);

int __libc_start_main(started *main, int argc, char **argv, started *init, void (*fini)(void), void (*unload)(void),
                      void *stack) {
    start *known = (start *)dlvsym(RTLD_NEXT, "__libc_start_main", "GLIBC_2.2.5");
    return known(main, argc, argv, init ? init : construct, fini, unload, stack);
}
