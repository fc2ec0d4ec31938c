/* Loaded before the C library (LD_PRELOAD), it has one call of the program fail. The environment says which:
 *   REFUSE      what kind of call: memory (malloc and realloc; the default), read, write, open or thread;
 *               or, of disk.c, pwrite, ftruncate, fsync, flock or link
 *   REFUSE_AT   the number of the call of this kind, from 1
 *   REFUSE_HOW  how it fails: error (so if it is missing), interrupted, short (one byte is moved), nothing (a write
 *               takes no byte), or cut (one byte is written, and the next write fails)
 *   REFUSE_MARK a file that is made where the call came
 * Or it runs the program again and again before its first instruction, with each call of the kind failing in turn,
 * until a run ends without such a call:
 *   REFUSE_EACH the file that gets, for each run, a line `STATUS MET OUT ERR` and then what the run wrote: its exit
 *               status or, below 0, the signal that ended it; whether the call came; and how many bytes follow of its
 *               standard output, of its standard error and of the file REFUSE_LEFT, -1 without that file
 *   REFUSE_LEFT the file whose bytes each run's record has, as the run left them
 *   REFUSE_IN   the path of the standard input of the runs
 *   REFUSE_FILES the folder whose files each run finds in its own, and nothing else there; without it they find
 *               what the run before left
 * A run may take 20 minutes: a machine may be slow and busy. */
#define _GNU_SOURCE
#include <errno.h>
#include <fcntl.h>
#include <pthread.h>
#include <signal.h>
#include <stdatomic.h>
#include <stdio.h>
#include <stdlib.h>
#include <string.h>
#include <sys/mman.h>
#include <sys/stat.h>
#include <sys/syscall.h>
#include <sys/uio.h>
#include <sys/wait.h>
#include <unistd.h>

#include "refuse.h"

enum { MOST_RUNS = 20000, SECONDS = 1200 };

extern void *__libc_malloc(size_t);
extern void *__libc_realloc(void *, size_t);
static int (*next_create)(pthread_t *, const pthread_attr_t *, void *(*)(void *), void *);

static enum kind kind;
enum how refuse_how;
static long at;
static atomic_long made;
/* Whether the call came; the runs of REFUSE_EACH share it with the process that counts them. */
static int *met;

static int is(const char *name, const char *value) {
    const char *found = getenv(name);
    return found && strcmp(found, value) == 0;
}

/* Counts a call of this kind, and says whether it is the one that fails. */
int is_refused(enum kind called) {
    if (called != kind || atomic_fetch_add(&made, 1) + 1 != at) return 0;
    if (met) *met = 1;
    const char *mark = getenv("REFUSE_MARK");
    if (mark) {
        int file = syscall(SYS_openat, AT_FDCWD, mark, O_CREAT | O_WRONLY, 0600);
        if (file >= 0) close(file);
    }
    return 1;
}

void *malloc(size_t size) { return is_refused(MEMORY) ? 0 : __libc_malloc(size); }
void *realloc(void *block, size_t size) { return is_refused(MEMORY) ? 0 : __libc_realloc(block, size); }

ssize_t read(int file, void *bytes, size_t size) {
    if (is_refused(READ)) {
        if (refuse_how == FAILS) return failed(EIO);
        if (refuse_how == INTERRUPTED) return failed(EINTR);
        if (size > 1) size = 1;
    }
    return syscall(SYS_read, file, bytes, size);
}

/* How many bytes a write of `size` bytes may take, or below 0 that it fails. */
static long taken(size_t size) {
    static atomic_int is_cut;
    if (atomic_exchange(&is_cut, 0)) return failed(ENOSPC);
    if (!is_refused(WRITE)) return size;
    if (refuse_how == FAILS) return failed(ENOSPC);
    if (refuse_how == INTERRUPTED) return failed(EINTR);
    if (refuse_how == NOTHING) return 0;
    if (refuse_how == CUT) is_cut = 1;
    return size > 1 ? 1 : size;
}

ssize_t write(int file, const void *bytes, size_t size) {
    note_answer(file);
    long most = taken(size);
    return most <= 0 && size > 0 ? most : syscall(SYS_write, file, bytes, most);
}

ssize_t writev(int file, const struct iovec *parts, int count) {
    size_t size = 0;
    for (int i = 0; i < count; i++) size += parts[i].iov_len;
    note_answer(file);
    long most = taken(size);
    if (most == (long)size) return syscall(SYS_writev, file, parts, count);
    if (most <= 0) return most;
    for (int i = 0; i < count; i++)
        if (parts[i].iov_len > 0) return syscall(SYS_write, file, parts[i].iov_base, 1);
    return 0;
}

int openat(int folder, const char *path, int flags, ...) {
    if (is_refused(OPEN)) return failed(refuse_how == INTERRUPTED ? EINTR : EMFILE);
    return syscall(SYS_openat, folder, path, flags, 0666);
}

int open(const char *path, int flags, ...) { return openat(AT_FDCWD, path, flags); }

int pthread_create(pthread_t *thread, const pthread_attr_t *how_made, void *(*does)(void *), void *with) {
    return is_refused(THREAD) ? EAGAIN : next_create(thread, how_made, does, with);
}

static void copy(FILE *to, int file, long size) {
    char bytes[4096];
    for (long done = 0; done < size;) {
        long got = syscall(SYS_pread64, file, bytes, sizeof bytes, done);
        if (got <= 0) _exit(3);
        fwrite(bytes, 1, got, to);
        done += got;
    }
}

static void use_as(int file, int number) {
    if (dup2(file, number) < 0) _exit(3);
    close(file);
}

/* Puts these files where the runs are, and takes away all others there. */
static void put_files(const char *files) {
    int status;
    pid_t child = files ? fork() : 0;
    if (!files) return;
    if (child == 0) {
        unsetenv("LD_PRELOAD");
        execl("/bin/sh", "sh", "-c", "find . -mindepth 1 -delete && cp -a \"$REFUSE_FILES/.\" .", (char *)0);
        _exit(127);
    }
    if (child < 0 || waitpid(child, &status, 0) != child || status != 0) _exit(3);
}

/* The file of this name, opened, or below 0 if there is no such file; a folder is no file. */
static int left_file(const char *name) {
    struct stat what;
    if (!name || stat(name, &what) != 0 || !S_ISREG(what.st_mode)) return -1;
    return (int)syscall(SYS_openat, AT_FDCWD, name, O_RDONLY);
}

/* Runs the program with each call failing in turn. Returns in the runs alone. */
static void run_each(const char *report) {
    FILE *to = fopen(report, "w");
    met = mmap(0, sizeof *met, PROT_READ | PROT_WRITE, MAP_SHARED | MAP_ANONYMOUS, -1, 0);
    if (!to || met == MAP_FAILED) _exit(3);
    for (long run = 1; run <= MOST_RUNS; run++) {
        int out = memfd_create("out", 0), err = memfd_create("err", 0), status;
        *met = 0;
        fflush(to);
        put_files(getenv("REFUSE_FILES"));
        pid_t child = fork();
        if (child == 0) {
            int in = syscall(SYS_openat, AT_FDCWD, getenv("REFUSE_IN"), O_RDONLY);
            use_as(in, 0);
            use_as(out, 1);
            use_as(err, 2);
            close(fileno(to));
            alarm(SECONDS);
            at = run;
            made = 0;
            return;
        }
        if (child < 0 || waitpid(child, &status, 0) != child) _exit(3);
        long told = lseek(out, 0, SEEK_END), complained = lseek(err, 0, SEEK_END);
        int left = left_file(getenv("REFUSE_LEFT"));
        long kept = left < 0 ? -1 : lseek(left, 0, SEEK_END);
        int ended = WIFEXITED(status) ? WEXITSTATUS(status) : -WTERMSIG(status);
        fprintf(to, "%d %d %ld %ld %ld\n", ended, *met, told, complained, kept);
        copy(to, out, told);
        copy(to, err, complained);
        if (left >= 0) {
            copy(to, left, kept);
            close(left);
        }
        close(out);
        close(err);
        if (!*met) break;
    }
    fclose(to);
    _exit(0);
}

__attribute__((constructor)) static void begin(void) {
    extern void *dlsym(void *, const char *);
    next_create = dlsym((void *)-1L, "pthread_create"); /* the one after this library's: RTLD_NEXT */
    const char *text = getenv("REFUSE_AT");
    long wanted = text ? atol(text) : 0;
    refuse_how = is("REFUSE_HOW", "interrupted") ? INTERRUPTED
        : is("REFUSE_HOW", "short")              ? SHORT
        : is("REFUSE_HOW", "nothing")            ? NOTHING
        : is("REFUSE_HOW", "cut")                ? CUT
                                                 : FAILS;
    enum kind asked = is("REFUSE", "read") ? READ
        : is("REFUSE", "write")            ? WRITE
        : is("REFUSE", "open")             ? OPEN
        : is("REFUSE", "thread")           ? THREAD
        : is("REFUSE", "pwrite")           ? PWRITE
        : is("REFUSE", "ftruncate")        ? FTRUNCATE
        : is("REFUSE", "fsync")            ? FSYNC
        : is("REFUSE", "flock")            ? FLOCK
        : is("REFUSE", "link")             ? LINK
                                           : MEMORY;
    const char *report = getenv("REFUSE_EACH");
    if (report) run_each(report);
    else at = wanted;
    kind = asked;
}
