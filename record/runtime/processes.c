/* Child processes and other programs, which are not recorded: they are counted in the head, which all processes share.
 * Interposes exec*, posix_spawn, popen and clone, mostly by the linker's --wrap, and system. A child of vfork runs in
 * the memory of its parent: between its begin and its exec the code here must not wait or allocate. */
#define OF_PROCESSES
#include "processes.h"
#include "atomics.h"
#include "events.h"
#include "turns.h"

/* This is a child process, and has not become another program. */
static u8 is_child;

/* Another program is about to begin in this process. */
static void note_program_begins(void) {
    if (!head) return;
    __atomic_fetch_add(&head->programs, 1, SC);
    if (is_child) __atomic_fetch_sub(&head->forks, 1, SC);
}

/* It did not begin after all. */
static int note_program_failed(int answer) {
    if (!head) return answer;
    __atomic_fetch_sub(&head->programs, 1, SC);
    if (is_child) __atomic_fetch_add(&head->forks, 1, SC);
    return answer;
}

static int note_started(int failed) {
    if (head && !failed) __atomic_fetch_add(&head->programs, 1, SC);
    return failed;
}

/* A call of the system that makes a process, by its number, and what came of it. */
static int makes_process(long number) {
#ifdef SYS_fork
    if (number == SYS_fork || number == SYS_vfork) return 1;
#endif
    return number == SYS_clone;
}

static long note_process(long answer) {
    if (head && answer > 0) __atomic_fetch_add(&head->forks, 1, SC);
    return answer;
}

#define BECOMES(name, given, passed_on) \
    WEAKLY int __real_##name given; \
    int __wrap_##name given { \
        note_program_begins(); \
        return note_program_failed(__real_##name passed_on); \
    }
BECOMES(execv, (const char *path, char *const *argv), (path, argv))
BECOMES(execve, (const char *path, char *const *argv, char *const *envp), (path, argv, envp))
BECOMES(execvp, (const char *path, char *const *argv), (path, argv))
BECOMES(execvpe, (const char *path, char *const *argv, char *const *envp), (path, argv, envp))
BECOMES(fexecve, (int file, char *const *argv, char *const *envp), (file, argv, envp))

/* How many words follow the first, up to the null pointer. */
static size_t words_in(va_list words) {
    size_t count = 1;
    while (va_arg(words, char *)) count++;
    return count;
}

static void put_words(char **to, const char *first, va_list words) {
    *to = (char *)first;
    while (*to) *++to = va_arg(words, char *);
}

/* The arguments of a call that has them one by one, as an array. */
#define LISTED(name, after, call) \
    int __wrap_##name(const char *path, const char *first, ...) { \
        va_list words; \
        va_start(words, first); \
        size_t count = first ? words_in(words) : 0; \
        va_end(words); \
        char *argv[count + 1]; \
        va_start(words, first); \
        put_words(argv, first, words); \
        after; \
        va_end(words); \
        return call; \
    }
LISTED(execl, , __wrap_execv(path, argv))
LISTED(execlp, , __wrap_execvp(path, argv))
LISTED(execle, char *const *envp = va_arg(words, char *const *), __wrap_execve(path, argv, envp))

#define STARTS(name) \
    WEAKLY int __real_##name(pid_t *, const char *, const posix_spawn_file_actions_t *, const posix_spawnattr_t *, \
                             char *const *, char *const *); \
    int __wrap_##name(pid_t *pid, const char *path, const posix_spawn_file_actions_t *actions, \
                      const posix_spawnattr_t *how, char *const *argv, char *const *envp) { \
        return note_started(__real_##name(pid, path, actions, how, argv, envp)); \
    }
STARTS(posix_spawn)
STARTS(posix_spawnp)

WEAKLY FILE *__real_popen(const char *, const char *);
FILE *__wrap_popen(const char *command, const char *way) {
    FILE *stream = __real_popen(command, way);
    note_started(!stream);
    return stream;
}

/* Without a command it only asks whether there is a shell. */
int system(const char *command) {
    REAL(system, int, const char *);
    note_started(!command);
    return OUTSIDE(real(command));
}

/* A process or thread that the program makes past the C library. */
WEAKLY int __real_clone(int (*)(void *), void *, int, void *, ...);
int __wrap_clone(int (*body)(void *), void *stack, int how, void *argument, ...) {
    va_list words;
    va_start(words, argument);
    void *parent = va_arg(words, void *), *tls = va_arg(words, void *), *child = va_arg(words, void *);
    va_end(words);
    return (int)note_process(__real_clone(body, stack, how, argument, parent, tls, child));
}
