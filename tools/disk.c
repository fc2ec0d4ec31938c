/* The part of refuse.c that has to do with a disk: it has a write at a place, a cut, a sync, a lock or a new name of a
 * file fail, and notes these calls in their order. The environment says where:
 *   DISK_NOTE   the file that gets a line for each call: its name, the file's number (that of a folder after `/`), and
 *                   flock FILE taken|freed RESULT   (a file that is closed frees its lock)
 *                   pread FILE PLACE RESULT
 *                   pwrite FILE PLACE RESULT BYTES      the bytes that were taken, in hexadecimal digits
 *                   ftruncate FILE LENGTH RESULT
 *                   fsync FILE RESULT
 *                   link FILE RESULT
 *                   answer                              standard output is written
 *               A result is 0, or the number of bytes, or below 0 the number of the error.
 * A call that is hidden is made and not noted, so that a judge of the notes can be judged:
 *   DISK_HIDE   the name of the call */
#define _GNU_SOURCE
#include <fcntl.h>
#include <stdio.h>
#include <stdlib.h>
#include <string.h>
#include <sys/file.h>
#include <sys/stat.h>
#include <sys/syscall.h>
#include <unistd.h>

#include "refuse.h"

/* Long enough for the notes of a piece of input that is written at once. */
enum { MOST_NOTED = 1 << 16 };

static void put(const char *text, size_t size) {
    const char *path = getenv("DISK_NOTE");
    int to = path ? (int)syscall(SYS_openat, AT_FDCWD, path, O_WRONLY | O_CREAT | O_APPEND, 0600) : -1;
    if (to < 0) return;
    if (syscall(SYS_write, to, text, size) != (long)size) _exit(3);
    syscall(SYS_close, to);
}

static int is_noted(const char *call) {
    const char *hidden = getenv("DISK_HIDE");
    return getenv("DISK_NOTE") && (!hidden || strcmp(hidden, call) != 0);
}

static int is_file(int file, struct stat *what) {
    return fstat(file, what) == 0 && (S_ISREG(what->st_mode) || S_ISDIR(what->st_mode));
}

/* The call's result, which is noted with its arguments and these bytes. */
static long noted(const char *call, int file, const char *said, const void *bytes, long result) {
    int error = errno;
    struct stat what;
    if (is_noted(call) && is_file(file, &what)) {
        static const char digits[] = "0123456789abcdef";
        static char text[2 * MOST_NOTED + 200];
        long count = bytes && result > 0 ? result : 0;
        if (count > MOST_NOTED) _exit(3);
        const char *folder = S_ISDIR(what.st_mode) ? "/" : "";
        long told = result < 0 ? -(long)error : result;
        int size = snprintf(text, 200, "%s %s%lu %s %ld ", call, folder, (unsigned long)what.st_ino, said, told);
        for (long i = 0; i < count; i++) {
            text[size++] = digits[((const unsigned char *)bytes)[i] >> 4];
            text[size++] = digits[((const unsigned char *)bytes)[i] & 15];
        }
        text[size - !count] = '\n';
        put(text, size + !!count);
    }
    errno = error;
    return result;
}

void note_answer(int file) {
    if (file == 1 && is_noted("answer")) put("answer\n", 7);
}

static long broken(void) { return failed(refuse_how == INTERRUPTED ? EINTR : EIO); }

static const char *number(off_t value) {
    static char text[32];
    snprintf(text, sizeof text, "%ld", (long)value);
    return text;
}

static long wrote(int file, const void *bytes, size_t size, off_t place) {
    static int is_cut;
    if (is_cut) {
        is_cut = 0;
        return failed(ENOSPC);
    }
    if (is_refused(PWRITE)) {
        if (refuse_how == FAILS) return failed(ENOSPC);
        if (refuse_how == INTERRUPTED) return failed(EINTR);
        if (refuse_how == NOTHING) return 0;
        is_cut = refuse_how == CUT;
        if (size > 1) size = 1;
    }
    return syscall(SYS_pwrite64, file, bytes, size, place);
}

ssize_t pwrite64(int file, const void *bytes, size_t size, off64_t place) {
    return noted("pwrite", file, number(place), bytes, wrote(file, bytes, size, place));
}

ssize_t pwrite(int file, const void *bytes, size_t size, off_t place) { return pwrite64(file, bytes, size, place); }

ssize_t pread64(int file, void *bytes, size_t size, off64_t place) {
    return noted("pread", file, number(place), 0, syscall(SYS_pread64, file, bytes, size, place));
}

ssize_t pread(int file, void *bytes, size_t size, off_t place) { return pread64(file, bytes, size, place); }

int ftruncate64(int file, off64_t length) {
    long result = is_refused(FTRUNCATE) ? broken() : syscall(SYS_ftruncate, file, length);
    return noted("ftruncate", file, number(length), 0, result);
}

int ftruncate(int file, off_t length) { return ftruncate64(file, length); }

int fsync(int file) { return noted("fsync", file, "", 0, is_refused(FSYNC) ? broken() : syscall(SYS_fsync, file)); }

int fdatasync(int file) {
    return noted("fsync", file, "", 0, is_refused(FSYNC) ? broken() : syscall(SYS_fdatasync, file));
}

/* The files whose lock is held. */
enum { MOST_FILES = 1024 };
static char is_locked[MOST_FILES];

int flock(int file, int how) {
    long result = is_refused(FLOCK) ? failed(ENOLCK) : syscall(SYS_flock, file, how);
    if (result == 0 && file < MOST_FILES) is_locked[file] = !(how & LOCK_UN);
    return noted("flock", file, how & LOCK_UN ? "freed" : "taken", 0, result);
}

int close(int file) {
    if (file >= 0 && file < MOST_FILES && is_locked[file]) {
        is_locked[file] = 0;
        noted("flock", file, "freed", 0, 0);
    }
    return syscall(SYS_close, file);
}

static int linked(int from_folder, const char *from, int to_folder, const char *to, int flags) {
    long result = is_refused(LINK) ? failed(EMLINK) : syscall(SYS_linkat, from_folder, from, to_folder, to, flags);
    int error = errno, file = (int)syscall(SYS_openat, from_folder, from, O_RDONLY);
    errno = error;
    noted("link", file, "", 0, result);
    error = errno;
    if (file >= 0) syscall(SYS_close, file);
    errno = error;
    return result;
}

int linkat(int from_folder, const char *from, int to_folder, const char *to, int flags) {
    return linked(from_folder, from, to_folder, to, flags);
}

int link(const char *from, const char *to) { return linked(AT_FDCWD, from, AT_FDCWD, to, 0); }
