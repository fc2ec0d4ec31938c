/* The start of the recording, and its end. Interposes __tsan_init, which each compiled part with hooks calls. Must not
 * take the token before `on` is set, and must not wait: main has not begun. */
#include "accesses.h"
#include "atomics.h"
#include "attributes.h"
#include "callers.h"
#include "deadlocks.h"
#include "descriptors.h"
#include "events.h"
#include "plan.h"
#include "processes.h"
#include "threads.h"
#include "turns.h"
#include "values.h"
#include "words.h"

/* The compiled parts of the program that have hooks, before the head is there. */
static u64 early_units;

static void stop_in_child(void) {
    on = 0;
    is_child = 1;
    if (head) __atomic_fetch_add(&head->forks, 1, SC);
}
static void note_fork(void) { has_forked = 1; }

static u64 option(const char *name, u64 otherwise) {
    const char *s = getenv(name);
    return s && *s ? strtoull(s, NULL, 10) : otherwise;
}

/* Where each part of the raw file lies. */
static u64 lay_out(struct head *h, u64 room) {
    h->room = room;
    h->stack_room = room / 4 < 4096 ? 4096 : room / 4 > 1 << 24 ? 1 << 24 : room / 4;
    h->stacks_at = sizeof *h;
    h->words_at = (h->stacks_at + h->stack_room * sizeof(struct node) + 4095) / 4096 * 4096;
    /* An update has two values. */
    u64 most_words = LONG_WORDS + (keeps_values ? 2 * VALUE_WORDS : 0);
    return h->words_at + (room * most_words + PIECE) / PIECE * PIECE * sizeof *words;
}

/* Makes room for the table of nodes and the first of each part; whether there is any. */
static int has_first_room(void) {
    node_table_size = 2 * head->stack_room;
    node_table = mmap(NULL, node_table_size * sizeof *node_table, PROT_READ | PROT_WRITE,
                      MAP_PRIVATE | MAP_ANONYMOUS | MAP_NORESERVE, -1, 0);
    if (node_table == MAP_FAILED || !more_nodes()) return 0;
    head->stacks = 1;
    return more_words(0);
}

/* Maps as much room as the limits of the process allow: the address space and the size of a file may have one. */
#define LEAST_ROOM 65536
static void *map_room(struct head *wanted, u64 room) {
    struct rlimit file_size;
    int is_limited = !getrlimit(RLIMIT_FSIZE, &file_size) && file_size.rlim_cur != RLIM_INFINITY;
    for (;; room /= 2) {
        u64 size = lay_out(wanted, room);
        if (!is_limited || size <= file_size.rlim_cur) {
            void *p = MAP_FAILED;
            if (!ftruncate(raw_file, (off_t)size))
                p = mmap(NULL, size, PROT_READ | PROT_WRITE, MAP_SHARED | MAP_NORESERVE, raw_file, 0);
            if (p != MAP_FAILED) return p;
        }
        if (room <= LEAST_ROOM) return MAP_FAILED;
    }
}

/* Counts this program, which is not recorded, unless the recorded process became it or started it: that is counted. */
static void note_other_program(void) {
    u64 recorded = __atomic_load_n(&head->process, SC);
    if (recorded == (u64)getpid() || recorded == (u64)getppid()) return;
    __atomic_fetch_add(&head->programs, 1, SC);
}

/* Maps the file that record/run made. The first process that comes to it has it; its children, and other programs that
 * are started, find it taken and are not recorded. */
static int map_file(const char *name) {
    struct head wanted = {0};
    raw_file = name && *name ? (int)syscall(SYS_openat, AT_FDCWD, name, O_RDWR | O_CLOEXEC) : -1;
    if (raw_file < 0) return 0;
    u64 nothing = 0;
    void *p = map_room(&wanted, option("RACEBENCH_RECORD_ROOM", 1 << 20));
    if (p == MAP_FAILED || !has_room(0, sizeof *head)) return 0;
    head = p;
    if (!__atomic_compare_exchange_n(&head->magic, &nothing, MAGIC, 0, SC, SC)) {
        note_other_program();
        return 0;
    }
    __atomic_store_n(&head->process, (u64)getpid(), SC);
    lay_out(head, wanted.room);
    words = (u64 *)((char *)p + head->words_at);
    all_nodes = (struct node *)((char *)p + head->stacks_at);
    head->units = early_units;
    return has_first_room();
}

/* The file's descriptor is high, where programs do not look, or as high as the limit allows. */
static void hide_file(void) {
    int high = -1;
    for (int at = 900; high < 0 && at > 2; at /= 2) high = (int)syscall(SYS_fcntl, raw_file, F_DUPFD_CLOEXEC, at);
    if (high < 0) return;
    syscall(SYS_close, raw_file);
    raw_file = high;
}

static void begin(void) {
    one_in = (u32)option("RACEBENCH_RECORD_YIELD", 40);
    if (!one_in) one_in = 1;
    u64 seed = option("RACEBENCH_RECORD_SEED", 1);
    young_in = young_rates[seed % (sizeof young_rates / sizeof *young_rates)];
    chance = (seed + 5) * 0x9e3779b97f4a7c15ull | 1;
    __real_pthread_key_create(&last_turn, end_of_thread);
    pthread_setspecific(last_turn, (void *)1);
    pthread_atfork(NULL, note_fork, stop_in_child);
    me = 0;
    ids[0] = pthread_self();
    kernel_ids[0] = getpid();
    joinable[0] = 1;
    note_modules();
    note_program((u64)begin);
    dl_iterate_phdr(note_c_library, NULL);
    dl_iterate_phdr(note_trusted, NULL);
    start_following(getenv("RACEBENCH_FOLLOW"));
    if (plan) threads = plan->threads > 1 ? (u32)plan->threads : 1;
    on = 1;
    take();
    own_stack();
}

static void start(void) {
    static u8 started;
    if (started) return;
    started = 1;
    inside = 1;
    keeps_values = option("RACEBENCH_RECORD_VALUES", 0) > 0;
    int there = map_file(getenv("RACEBENCH_RECORD"));
    if (raw_file >= 0) hide_file();
    inside = 0;
    if (there) begin();
}

/* Each compiled part with hooks calls this at the start. */
void __tsan_init(void) {
    note_hooked((u64)__builtin_return_address(0));
    if (head) head->units++;
    else early_units++;
    start();
    if (on) note_modules();
}
__attribute__((constructor(101))) static void at_start(void) { start(); }
/* Libraries that were opened late have names too. */
__attribute__((destructor(101))) static void at_end(void) {
    if (on) note_modules();
}
