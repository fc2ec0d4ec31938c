// The recorder of Go programs. It replaces the runtime of ThreadSanitizer that `go build -race` links. Go calls these
// functions on the system stack, by the calling convention of C, and they never call Go. The changed sources of the
// standard library keep one processor for all goroutines, so no two of these functions run at the same time.
//
// The log is a file: a head of 4096 bytes, a tail of TAIL bytes, then the body. A record has 16 bytes. It is written
// to the tail, which is shared memory, and the full tail goes to the end of the body. So a program that is killed
// leaves all records. decode/log.go reads the file.
#define _GNU_SOURCE
#include <dirent.h>
#include <fcntl.h>
#include <stdint.h>
#include <stdio.h>
#include <stdlib.h>
#include <string.h>
#include <sys/mman.h>
#include <sys/resource.h>
#include <sys/statvfs.h>
#include <time.h>
#include <unistd.h>

typedef uint8_t u8;
typedef uint32_t u32;
typedef uint64_t u64;

// Kinds of records, in the order of decode/log.go.
enum {
    READ = 1,
    WRITE,
    FORK,
    END,
    ACQUIRE,
    RELEASE,
    RELEASE_MERGE,
    RELEASE_ACQUIRE,
    LOAD,
    STORE,
    MODIFY,
    FAILED_MODIFY,
    MALLOC,
    NODE,
    FINALIZER,
    SWITCH,
    MORE,
    EVENTS = 32, // the kinds of __record_event begin here
    QUIET = 64   // set in the kind of an access inside of race.Disable, which is no tick
};
// Events from WANTED to LAST_WANTED are requests of locks; those from BY_TRY on took a lock by a try.
enum { WANTED = 9, LAST_WANTED = 11, BY_TRY, MEETS = 16, BUFFER = 17 };
// Why records are missing.
enum { ROOM = 1, DISK };
// Who started a goroutine, as raceorigin says.
enum { BY_PROGRAM, BY_RUNTIME, BY_TIMER };
// The number of the main goroutine's context.
enum { MAIN = 1 };

// The overlay names the GOROOT here; record/run looks for this text in a program.
#ifndef GOROOT_MARK
#define GOROOT_MARK "RACEBENCH_GOROOT="
#endif
#define GOROOT_AT 512
#define MAGIC 0x32304f4745434152ull // RACEGO02
#define HEAD 4096
#define TAIL (1u << 20)
#define RECORD 16
#define ADDRESS 0xffffffffffffull
#define TABLE (1u << 23)
#define CALLS_OF_A_BLOCK 10
// How many tails pass between two looks at the free space of the file system.
#define TAILS_A_LOOK 16

struct record {
    u64 what, with;
};
struct header {
    u64 magic, owner, flushed, appended, limit, lost, cause, base, others, clashes, switches, yields, threads, no_calls;
    volatile u64 forced, stop;
    u64 dead;
};
struct waiting {
    u32 kind, size, stack, depth;
    u64 address, pc;
    int (*work)(u8 *);
};
// The first three words are what racedraw of the changed sources draws from: how many records the goroutine made, what
// it drew since the last one, and what it is known by in each run.
struct context {
    u64 ticks, draws, id;
    u32 thread, stack, number;
    int ignore, waits, may_pass, is_timer;
    struct waiting waiting;
};
struct call {
    u32 parent, depth;
    u64 pc, last_pc;
    u32 last_depth, last;
};
struct entry {
    u64 pc;
    u32 parent, depth, node;
};

static struct header *header;
static u8 *tail;
static int file = -1, off = 1, started, busy;
static u32 contexts_left, nodes, now = ~0u, tails, yield_in, yield_of;
static struct context *contexts;
static u64 draw = 1;
static struct entry *table;
static struct call *calls;

void __tsan_init(void **thread, void **processor, void *callback);
static void *mapped(u64 bytes);

#include "follow.h"
#include "requests.h"

static u64 drawn(void) {
    draw ^= draw << 13, draw ^= draw >> 7, draw ^= draw << 17;
    return draw * 0x2545F4914F6CDD1DULL;
}

static void end_of_log(u64 cause) { header->cause = cause, header->limit = header->appended; }

static int disk_is_nearly_full(void) {
    struct statvfs system;
    return !fstatvfs(file, &system) && system.f_bavail < system.f_blocks / 10;
}

// Moves the full tail to the body. If that fails, the tail keeps its records, and the log ends there.
static void flush(void) {
    for (u64 done = 0; done < TAIL;) {
        ssize_t n = pwrite(file, tail + done, TAIL - done, HEAD + TAIL + header->flushed + done);
        if (n <= 0) return end_of_log(DISK);
        done += n;
    }
    header->flushed += TAIL;
    if (++tails % TAILS_A_LOOK == 0 && disk_is_nearly_full()) end_of_log(DISK);
}

static void append(u64 what, u64 with) {
    if (header->stop) end_of_log(ROOM), header->stop = 0;
    if (header->appended >= header->limit) {
        header->lost++;
        return;
    }
    struct record *r = (struct record *)(tail + (header->appended - header->flushed));
    r->what = what, r->with = with;
    __asm__ volatile("" ::: "memory");
    header->appended += RECORD;
    if (header->appended - header->flushed == TAIL) flush();
}

static u64 what_of(u64 address, u64 kind, u64 small) { return (address & ADDRESS) | kind << 48 | small << 56; }

static void put(u32 thread, u64 what, u32 stack, u64 high) {
    if (thread != now) now = thread, header->switches++, append(what_of(thread, SWITCH, 0), 0);
    append(what, stack | high << 32);
}

// Places of code are kept as the distance from this file, which has 32 bits.
static u64 place_of(u64 pc) { return (u32)(pc - (u64)&__tsan_init); }

static void put_access(struct context *c, int kind, u64 address, u64 size, u32 stack, u64 pc) {
    int quiet = c->ignore ? QUIET : 0;
    if (!quiet) tick(c, kind, pc);
    put(c->thread, what_of(address, kind | quiet, size < 255 ? size : 255), stack, place_of(pc));
    if (size >= 255) append(what_of(size, MORE, 0), 0);
}

static struct entry *entry_of(u32 parent, u64 pc, u32 depth) {
    u64 h = ((pc ^ ((u64)parent << 32 | depth)) * 0x9E3779B97F4A7C15ULL ^ parent) * 0xBF58476D1CE4E5B9ULL;
    u32 at = (h >> 32) & (TABLE - 1);
    while (table[at].node && (table[at].pc != pc || table[at].parent != parent || table[at].depth != depth))
        at = (at + 1) & (TABLE - 1);
    return table + at;
}

// A stack is a node of a tree: its innermost call, how deep in the goroutine's stack that is, and the rest.
static u32 child(u32 parent, u64 pc, u32 depth, u64 is_type) {
    struct call *above = calls + parent;
    if (above->last && above->last_pc == pc && above->last_depth == depth) return above->last;
    struct entry *e = entry_of(parent, pc, depth);
    if (!e->node) {
        if (nodes + 1 >= TABLE / 2) {
            header->no_calls++;
            return parent;
        }
        e->pc = pc, e->parent = parent, e->depth = depth, e->node = ++nodes;
        calls[nodes].parent = parent, calls[nodes].depth = depth, calls[nodes].pc = pc;
        append(what_of(pc, NODE, is_type), parent);
    }
    above->last_pc = pc, above->last_depth = depth;
    return above->last = e->node;
}

static void *mapped(u64 bytes) {
    void *p = mmap(0, bytes, PROT_READ | PROT_WRITE, MAP_PRIVATE | MAP_ANONYMOUS | MAP_NORESERVE, -1, 0);
    return p == MAP_FAILED ? 0 : p;
}

static struct context *context(void) {
    static u32 threads;
    if (!contexts_left) contexts = mapped((u64)(contexts_left = 1 << 12) * sizeof *contexts);
    struct context *c = contexts++;
    contexts_left--, c->thread = threads++, c->number = NOBODY;
    return c;
}

static u64 number(const char *name, u64 otherwise) {
    const char *text = getenv(name);
    return text && *text ? strtoull(text, 0, 10) : otherwise;
}

// The file has a number that the program is unlikely to close or to get.
static int moved_up(int low) {
    struct rlimit most;
    int least = !getrlimit(RLIMIT_NOFILE, &most) && most.rlim_cur > 64 ? (int)most.rlim_cur - 32 : 3;
    int high = fcntl(low, F_DUPFD_CLOEXEC, least > 1000000 ? 1000000 : least);
    if (high < 0) return low;
    close(low);
    return high;
}

// The first process that comes has the log; a program that it runs records nothing.
static void open_log(const char *path) {
    if (!path || (file = open(path, O_RDWR | O_CLOEXEC)) < 0) return;
    file = moved_up(file);
    header =
        ftruncate(file, HEAD + TAIL) ? MAP_FAILED : mmap(0, HEAD + TAIL, PROT_READ | PROT_WRITE, MAP_SHARED, file, 0);
    if (header == MAP_FAILED) return;
    if (!__sync_bool_compare_and_swap(&header->owner, 0, (u64)getpid())) {
        __sync_fetch_and_add(&header->others, 1);
        return;
    }
    tail = (u8 *)header + HEAD;
    table = mapped(TABLE * sizeof *table), calls = mapped(TABLE / 2 * sizeof *calls);
    u64 room = number("RACEBENCH_GO_ROOM", ~0ull / RECORD);
    header->limit = room < ~0ull / RECORD ? room * RECORD : ~0ull - RECORD;
    header->base = (u64)&__tsan_init, header->magic = MAGIC;
    open_plan(getenv("RACEBENCH_GO_FOLLOW"), header->base);
    strncpy((char *)header + GOROOT_AT, GOROOT_MARK, HEAD - GOROOT_AT - 1);
    off = !table || !calls;
}

void __tsan_init(void **thread, void **processor, void *callback) {
    yield_of = number("RACEBENCH_GO_YIELD", 0), yield_in = yield_of;
    draw = number("RACEBENCH_GO_SEED", 1) * 0x9E3779B97F4A7C15ULL | 1;
    for (int i = 0; i < 8; i++) drawn();
    open_log(getenv("RACEBENCH_GO_LOG"));
    *thread = context(), *processor = 0;
}

// What a goroutine is known by in each run: its parent, and how many records that had made.
static u64 id_of(const struct context *parent) {
    u64 id = parent ? (parent->id ^ parent->ticks) * 0x9E3779B97F4A7C15ULL : 0;
    return (id ^ id >> 29) * 0xBF58476D1CE4E5B9ULL + 1;
}

// What the goroutines of a run draw from, and what its scheduler draws from; 0 if nothing is recorded. A run that
// follows a plan has another seed for what comes after it.
void __record_seed(u64 *seed, u64 *scheduler) {
    *seed = off ? 0 : drawn() | 1;
    draw ^= number("RACEBENCH_GO_AFTER", 0) * 0xD1B54A32D192ED03ULL;
    draw |= !draw;
    *scheduler = drawn() | 1;
}

// The processor time of a thread of this process, in nanoseconds; Linux makes the number of its clock so.
static u64 time_of(u64 thread) {
    struct timespec t;
    return clock_gettime(~(clockid_t)thread * 8 | 6, &t) ? 0 : (u64)t.tv_sec * 1000000000 + (u64)t.tv_nsec;
}

// Whether the goroutine that runs on a thread must be stopped, since it had so much processor time in this turn. A
// thread of a busy machine that waits for a processor has none.
void __record_force(u64 *answer, u64 thread, u64 turn, u64 longest) {
    static u64 since, of_thread, of_turn;
    u64 spent = time_of(thread);
    *answer = 0;
    if (of_thread != thread || of_turn != turn || spent < since) {
        of_thread = thread, of_turn = turn, since = spent;
    } else if (spent - since >= longest) {
        since = spent, *answer = 1;
        if (!off) header->forced++;
    }
}

// Whether a thread waits in a system call, and not just for a processor.
void __record_blocked(u64 *answer, u64 thread) {
    char text[512];
    snprintf(text, sizeof text, "/proc/self/task/%u/stat", (unsigned)thread);
    int stat = open(text, O_RDONLY | O_CLOEXEC);
    ssize_t n = stat < 0 ? 0 : read(stat, text, sizeof text - 1);
    if (stat >= 0) close(stat);
    text[n > 0 ? n : 0] = 0;
    char *name_end = strrchr(text, ')');
    *answer = !name_end || strncmp(name_end, ") R", 3);
}

// Go's scheduler takes the program for ended: this call must not return.
void __tsan_fini(void) { off = 1, exit(0); }
void __tsan_proc_create(void **processor) { *processor = 0; }
void __tsan_proc_destroy(void *processor) {}
void __tsan_map_shadow(void *address, u64 bytes) {}
void __tsan_free(u64 address, u64 size) {}
void __tsan_report_count(u64 *count) { *count = 0; }
void __tsan_go_ignore_sync_begin(struct context *c) {
    if (c) c->ignore++;
}
void __tsan_go_ignore_sync_end(struct context *c) {
    if (c) c->ignore--;
}

// Begins a record of a thread; 0 if none is written. Two at the same time are counted: the log could be wrong then.
static int begin(struct context *c) {
    if (off || !c) return 0;
    if (busy) header->clashes++;
    return busy = 1;
}

static void done(void) { busy = 0; }

// What comes before the first goroutine of the program comes before all others too, so its accesses are left out.
void __tsan_go_start(struct context *parent, void **thread, u64 pc, u64 origin) {
    struct context *c = *thread = context();
    if (!begin(c)) return;
    if (origin == BY_PROGRAM || origin == BY_TIMER) started = 1;
    int ticks_on = parent && origin != BY_RUNTIME && origin != BY_TIMER;
    if (ticks_on) tick(parent, FORK, pc);
    c->id = id_of(parent), c->is_timer = origin == BY_TIMER, c->ticks = c->is_timer;
    give_number(c, c->thread == MAIN ? 0 : origin == BY_RUNTIME ? NOBODY : number_of(parent, origin));
    header->threads++;
    u32 stack = parent ? parent->stack : 0;
    put(parent ? parent->thread : 0, what_of(c->thread, FORK, origin), stack, place_of(pc));
    done();
}

static void simple(struct context *c, int kind, u64 address, u64 high) {
    if (!begin(c)) return;
    if (kind != END) tick(c, kind, 0);
    else if (following && c->number != NOBODY) is_last_done(c->number);
    put(c->thread, what_of(address, kind, 0), c->stack, high);
    done();
}

void __tsan_go_end(struct context *c) { simple(c, END, 0, 0); }
void __tsan_finalizer_goroutine(struct context *c) { started = 1, simple(c, FINALIZER, 0, 0); }

// Go keeps the caller's stack pointer in R12 and the goroutine, whose second word is the upper end of its stack, in
// R14. The distance of the two is the depth of a function, wherever the stack is moved.
#define WITH_DEPTH(name, to) \
    __asm__(".text\n.globl " #name "\n.type " #name ",@function\n" #name ":\n" \
            "mov 8(%r14), %rdx\nsub %r12, %rdx\njmp " #to "\n")
WITH_DEPTH(__tsan_func_enter, __record_enter);
WITH_DEPTH(__tsan_func_exit, __record_exit);

// Calls that are not above this function were left by a panic or by Goexit.
static u32 above(u32 stack, u64 depth) {
    while (stack && calls[stack].depth >= depth) stack = calls[stack].parent;
    return stack;
}

__attribute__((visibility("hidden"))) void __record_enter(struct context *c, u64 pc, u64 depth) {
    if (!begin(c)) return;
    c->stack = child(above(c->stack, depth), pc, depth, 0);
    done();
}

__attribute__((visibility("hidden"))) void __record_exit(struct context *c, u64 unused, u64 depth) {
    if (c && !off) c->stack = above(c->stack, depth);
}

// Whether the goroutine shall let another one go on: the answer goes to racecalladdr in race_amd64.s.
static u64 yields(void) {
    if (!yield_of || --yield_in) return 0;
    yield_in = 1 + drawn() % (2 * yield_of - 1);
    header->yields++;
    return 1;
}

// Whether a goroutine waits for its turn in a plan, before an access.
static u64 waits_for(struct context *c, int kind, u64 address, u64 size, u32 stack, u64 pc) {
    struct waiting w = {kind, (u32)size, stack, 0, address, pc, 0};
    if (!following || c->ignore) return 0;
    c->waiting = w;
    return must_wait(c, 1);
}

// The access comes after the hook, and the record must come after the yield: until then it waits in its goroutine.
static u64 accessed(struct context *c, int kind, u64 address, u64 size, u64 pc) {
    if (!started || !begin(c)) return 0;
    u64 answer = waits_for(c, kind, address, size, c->stack, pc) || yields();
    if (answer) {
        struct waiting w = {kind, (u32)size, c->stack, 0, address, pc, 0};
        c->waiting = w, c->waits = 1;
    } else {
        put_access(c, kind, address, size, c->stack, pc);
    }
    done();
    return answer;
}

// After a yield: does an atomic operation that waited, and writes the record.
void __record_waiting(struct context *c, u64 top) {
    if (!c || !c->waits) return;
    struct waiting *w = &c->waiting;
    c->waits = 0;
    if (w->work) w->kind = w->work((u8 *)(top - w->depth));
    if (!begin(c)) return;
    put_access(c, w->kind, w->address, w->size, w->stack, w->pc);
    done();
}

// After a yield: whether the goroutine has to wait on for its turn.
void __record_again(struct context *c, u64 *answer) { *answer = c && c->waits && must_wait(c, 1); }

// Before an operation that makes records: 1 if others may go on first, 2 if the goroutine waits for its turn. The main
// goroutine, which `ends` the program, waits for the end of the plan.
void __record_turn(struct context *c, u64 *answer, u64 ends) {
    *answer = 0;
    if (off || !c || c->ignore) return;
    c->waiting.pc = 0;
    if (ends && following && due() == c->number && c->number != NOBODY && !is_last_done(c->number))
        depart(ENDED, c->number, 0, 0, 0, 0);
    if (ends ? following && c->number != NOBODY : must_wait(c, 0)) *answer = 2;
    else if (started && !ends) *answer = yields();
}

u64 __tsan_read(struct context *c, u64 address, u64 pc) { return accessed(c, READ, address, 1, pc); }
u64 __tsan_write(struct context *c, u64 address, u64 pc) { return accessed(c, WRITE, address, 1, pc); }
u64 __tsan_read_range(struct context *c, u64 address, u64 size, u64 pc) {
    return size ? accessed(c, READ, address, size, pc) : 0;
}
u64 __tsan_write_range(struct context *c, u64 address, u64 size, u64 pc) {
    return size ? accessed(c, WRITE, address, size, pc) : 0;
}

static u64 accessed_inside(struct context *c, int kind, u64 address, u64 caller, u64 pc) {
    if (!started || !begin(c)) return 0;
    u32 stack = caller ? child(c->stack, caller, ~0u, 0) : c->stack;
    u64 answer = waits_for(c, kind, address, 1, stack, pc);
    if (answer) c->waits = 1;
    else put_access(c, kind, address, 1, stack, pc);
    done();
    return answer;
}
u64 __tsan_read_pc(struct context *c, u64 address, u64 caller, u64 pc) {
    return accessed_inside(c, READ, address, caller, pc);
}
u64 __tsan_write_pc(struct context *c, u64 address, u64 caller, u64 pc) {
    return accessed_inside(c, WRITE, address, caller, pc);
}

// The calls that lead to an allocation are read from the frame pointers that Go keeps.
static u32 chain_from(u64 *frame) {
    u64 pcs[CALLS_OF_A_BLOCK];
    int n = 0;
    while (n < CALLS_OF_A_BLOCK && frame && !((u64)frame & 7)) {
        pcs[n++] = frame[1];
        u64 *next = (u64 *)frame[0];
        if (next <= frame || (char *)next - (char *)frame > 1 << 16) break;
        frame = next;
    }
    u32 chain = 0;
    while (n--) chain = child(chain, pcs[n], 0, 0);
    return chain;
}

void __tsan_malloc(struct context *c, u64 type, u64 address, u64 size) {
    if (off) return;
    if (busy) header->clashes++;
    busy = 1;
    u32 chain = chain_from(*(u64 **)__builtin_frame_address(0));
    if (type) chain = child(chain, type, 0, 1);
    append(what_of(address, MALLOC, size >> 32 ? 1 : 0), chain | size << 32);
    if (size >> 32) append(what_of(size, MORE, 0), 0);
    done();
}

// Where the innermost function with hooks is: the return address before that of its own frame.
static u64 place_in(struct context *c, u64 *frame) {
    u64 before = 0;
    for (int n = 0; n < CALLS_OF_A_BLOCK && frame && !((u64)frame & 7); n++) {
        if (frame[1] == calls[c->stack].pc) return before ? place_of(before) : 0;
        before = frame[1];
        u64 *next = (u64 *)frame[0];
        if (next <= frame || (char *)next - (char *)frame > 1 << 16) break;
        frame = next;
    }
    return 0;
}

static void passed(struct context *c, int kind, u64 address) {
    if (started && c && !c->ignore) simple(c, kind, address, place_in(c, *(u64 **)__builtin_frame_address(0)));
}
void __tsan_acquire(struct context *c, u64 address) { passed(c, ACQUIRE, address); }
void __tsan_release(struct context *c, u64 address) { passed(c, RELEASE, address); }
void __tsan_release_merge(struct context *c, u64 address) { passed(c, RELEASE_MERGE, address); }
void __tsan_release_acquire(struct context *c, u64 address) { passed(c, RELEASE_ACQUIRE, address); }

// Events of the changed Go sources: locks, channels. The value is a number, the other goroutine of a channel, or the
// place of a lock's caller.
u64 __record_event(struct context *c, u64 kind, u64 address, u64 value) {
    if (!begin(c)) return 0;
    struct context *other = kind == MEETS ? (struct context *)value : 0;
    u64 high = other ? other->thread : kind < MEETS ? place_of(value) : value;
    // A request depends on what others do, so it is no tick.
    if (kind >= WANTED && kind <= LAST_WANTED) wait_in_plan(c, kind, address);
    else tick(c, (int)(EVENTS + kind), kind < MEETS ? calls[c->stack].pc : 0), note_lock(c, kind, address);
    if (other) tick(other, (int)(EVENTS + kind), 0);
    put(c->thread, what_of(address, EVENTS + kind, 0), c->stack, high);
    u64 place = kind < MEETS ? 0 : place_in(c, *(u64 **)__builtin_frame_address(0));
    if (place || other) append(what_of(other ? other->stack : 0, MORE, 0), place);
    done();
    return 0;
}

// Whether the process has no more threads than this.
void __record_alone(u64 *answer, u64 threads) {
    DIR *tasks = opendir("/proc/self/task");
    u64 found = 0;
    for (struct dirent *one; tasks && (one = readdir(tasks));) found += one->d_name[0] != '.';
    if (tasks) closedir(tasks);
    *answer = tasks && found <= threads;
}

// All goroutines wait for ever.
void __record_dead(void) {
    if (!off) header->dead = 1;
}

// Atomic operations: the recorder does them, so no other goroutine comes between one and its record. Each operation
// has its arguments after its address, and its result after its arguments.
#define ORDER __ATOMIC_SEQ_CST
#define OPERATION(name, bits, work) \
    static int name##bits(u8 *a) { \
        typedef u##bits type; \
        type *p = *(type **)a; \
        work; \
    }
#define OPERATIONS(bits) \
    OPERATION(load, bits, *(type *)(a + 8) = __atomic_load_n(p, ORDER); return LOAD) \
    OPERATION(store, bits, __atomic_store_n(p, *(type *)(a + 8), ORDER); return STORE) \
    OPERATION(exchange, bits, *(type *)(a + 16) = __atomic_exchange_n(p, *(type *)(a + 8), ORDER); return MODIFY) \
    OPERATION(fetch_add, bits, *(type *)(a + 16) = __atomic_fetch_add(p, *(type *)(a + 8), ORDER); return MODIFY) \
    OPERATION(fetch_and, bits, *(type *)(a + 16) = __atomic_fetch_and(p, *(type *)(a + 8), ORDER); return MODIFY) \
    OPERATION(fetch_or, bits, *(type *)(a + 16) = __atomic_fetch_or(p, *(type *)(a + 8), ORDER); return MODIFY) \
    OPERATION(compare_exchange, bits, type old = *(type *)(a + 8); u8 *answer = a + 8 + 2 * sizeof *p; \
              *answer = __atomic_compare_exchange_n(p, &old, *(type *)(a + 8 + sizeof *p), 0, ORDER, ORDER); \
              return *answer ? MODIFY : FAILED_MODIFY)
OPERATIONS(32)
OPERATIONS(64)

// The function of package atomic was called by a wrapper, whose arguments these are: the place is that of its caller.
static u64 of_caller(u64 *frame, u8 *arguments, u64 caller) {
    u64 away = (u8 *)frame - arguments;
    return away < 256 ? frame[1] : caller;
}

struct operation {
    int (*work)(u8 *);
    u32 size;
    int may_wait, may_yield_after;
};

// Whether a goroutine waits for its turn in a plan, before an atomic operation. No garbage is collected then.
static int is_to_wait(struct context *c, u8 *a, u64 place, const struct operation *is) {
    struct waiting w = {0, is->size, c->stack, 0, *(u64 *)a, place, is->work};
    if (!following) return 0;
    c->waiting = w;
    return must_wait(c, 1);
}

// A loop over an atomic variable must let others go on. The yield comes before the operation, except for 64 bits that
// may be the pointer that is stored: its block must not be lost. It comes after such an exchange that failed.
static u64 atomic(struct context *c, u64 caller, u8 *a, u64 top, u64 *frame, const struct operation *is) {
    if (off || !started || !c || c->ignore) return is->work(a), 0;
    u64 place = of_caller(frame, a, caller);
    if (is_to_wait(c, a, place, is) || (is->may_wait && yields())) {
        struct waiting w = {0, is->size, c->stack, (u32)(top - (u64)a), *(u64 *)a, place, is->work};
        c->waiting = w, c->waits = 1;
        return 1;
    }
    int kind = is->work(a);
    if (!begin(c)) return 0;
    put_access(c, kind, *(u64 *)a, is->size, c->stack, place);
    done();
    return is->may_yield_after && kind == FAILED_MODIFY ? yields() : 0;
}

// A hook also gets the upper end of the goroutine's stack and the frame of the caller.
#define HOOK(name, work, bits, waits, after) \
    __asm__(".text\n.globl " #name "\n.type " #name ",@function\n" #name ":\n" \
            "mov 8(%r14), %r8\nmov %rbp, %r9\njmp " #name "_at\n"); \
    __attribute__((visibility("hidden"))) \
    u64 name##_at(struct context *c, u64 caller, u64 pc, u8 *a, u64 top, u64 *frame) { \
        static const struct operation is = {work##bits, bits / 8, waits, after}; \
        return atomic(c, caller, a, top, frame, &is); \
    }
#define HOOKS(bits, waits) \
    HOOK(__tsan_go_atomic##bits##_load, load, bits, 1, 0) \
    HOOK(__tsan_go_atomic##bits##_store, store, bits, waits, 0) \
    HOOK(__tsan_go_atomic##bits##_exchange, exchange, bits, waits, 0) \
    HOOK(__tsan_go_atomic##bits##_fetch_add, fetch_add, bits, waits, 0) \
    HOOK(__tsan_go_atomic##bits##_fetch_and, fetch_and, bits, waits, 0) \
    HOOK(__tsan_go_atomic##bits##_fetch_or, fetch_or, bits, waits, 0) \
    HOOK(__tsan_go_atomic##bits##_compare_exchange, compare_exchange, bits, waits, !waits)
HOOKS(32, 1)
HOOKS(64, 0)
