/* The records, and the calls around them. Interposes __tsan_func_entry and __tsan_func_exit, which the compiler puts
 * around each function. Must not allocate: the hooks of the heap come here too. Calls of the C library run with
 * `inside` set. */
#define OF_EVENTS
#include "events.h"
#include "callers.h"
#include "follow.h"
#include "frames.h"
#include "freed.h"
#include "plan.h"
#include "turns.h"
#include "values.h"
#include "words.h"

static u64 put(int kind, u64 at, u64 size, u64 pc);
static __thread struct call *calls;
static __thread u32 known_nodes;

static struct node *all_nodes;
/* Numbers of nodes by what they are: places of a table, 0 if empty. */
static u32 *node_table;
static u64 node_table_size;

/* How many nodes the disk has room for. */
static u64 stacks_there;
#define PIECE_OF_STACKS 65536

static int more_nodes(void) {
    if (head->full || stacks_there >= head->stack_room) return 0;
    u8 was = inside;
    inside = 1;
    u64 n = head->stack_room - stacks_there < PIECE_OF_STACKS ? head->stack_room - stacks_there : PIECE_OF_STACKS;
    int there = has_room(head->stacks_at + stacks_there * sizeof(struct node), n * sizeof(struct node));
    if (there) stacks_there += n;
    inside = was;
    return there;
}

/* The node above `parent`, or itself, that has these two places; or 0. */
static u32 same_places(u32 parent, u64 body, u64 site) {
    while (parent && (all_nodes[parent].body != body || all_nodes[parent].site != site))
        parent = all_nodes[parent].parent;
    return parent;
}

/* The node of a call from the node of its caller; without room, that of the caller. */
static u32 node_of(u32 parent, u64 body, u64 site) {
    u64 hash = (body * 31 + site) * 0x9e3779b97f4a7c15ull ^ (u64)parent * 0xff51afd7ed558ccdull;
    hash ^= hash >> 29;
    for (u64 k = hash % node_table_size;; k = k + 1 < node_table_size ? k + 1 : 0) {
        struct node *n = &all_nodes[node_table[k]];
        if (node_table[k]) {
            if (n->parent == parent && n->body == body && n->site == site) return n->same;
            continue;
        }
        if (head->stacks >= stacks_there && !more_nodes()) return parent;
        u32 number = (u32)head->stacks, same = same_places(parent, body, site);
        all_nodes[number] = (struct node){body, site, parent, same ? same : number};
        head->stacks++;
        node_table[k] = number;
        return all_nodes[number].same;
    }
}

/* The node of the innermost of `d` calls. Only a thread that has its turn makes nodes; a signal's handler that
 * interrupts this takes what is known. */
static __attribute__((noinline)) u32 node_at(u32 d) {
    static __thread u8 busy;
    while (known_nodes < d && !busy) {
        busy = 1;
        u32 k = known_nodes;
        calls[k].node = node_of(k ? calls[k - 1].node : 0, calls[k].body, calls[k].site);
        known_nodes = k + 1;
        busy = 0;
    }
    d = d < known_nodes ? d : known_nodes;
    return d ? calls[d - 1].node : 0;
}

static inline u32 stack_now(void) {
    u32 d = depth < CALLS ? depth : CALLS;
    if (!d) return 0;
    return d <= known_nodes ? calls[d - 1].node : node_at(d);
}

static int is_tick(int kind) { return kind != ALLOCATED && kind != FREED && kind != RESIZED && kind != STACK; }

/* The thread comes to its next hook while a plan may be followed, and waits for its turn; its clock there. */
static __attribute__((noinline)) u64 next_planned(int kind, u64 at, u64 size, u64 pc) {
    int counts = is_tick(kind);
    u64 pos = counts ? CLOCK(tick + 1, 0) : CLOCK(tick, sub + (kind == FREED));
    int planned = following && (counts || (kind == FREED && plan->frees));
    if (planned) {
        about_to(kind, at, kind == FREED ? malloc_usable_size((void *)at) : size, pc);
        arrive(pos);
    }
    keep_turn();
    if (counts) tick++, sub = 0;
    else if (kind == FREED) sub++;
    if (planned && following) passed_hook(pos, kind, pc);
    return pos;
}

/* The thread comes to its next hook, in its turn; its clock there. */
static inline u64 next_pos(int kind, u64 at, u64 size, u64 pc) {
    if (following || !is_tick(kind)) return next_planned(kind, at, size, pc);
    tick++, sub = 0;
    return CLOCK(tick, 0);
}

/* The thread's clock at the end of a call whose frame others used. What other frames others used differs in a run that
 * is followed. But each call leaves where its frame is at a hook, so after the last hook no other call has this depth. */
static u64 pos_of_end(u64 at, u64 size, u64 pc) {
    u64 pos = CLOCK(tick, FRAME_ENDS | depth);
    int planned = is_planned(pos);
    if (planned) {
        about_to(FREED, at, size, pc);
        arrive(pos);
    }
    keep_turn();
    if (planned && following) passed_hook(pos, FREED, pc);
    return pos;
}

/* Makes a record, in the thread's turn; its place, or NO_PLACE if there is no room. One that `stays_open` is changed
 * when the call has been made. Inlined, so that the record is in registers. */
static inline __attribute__((always_inline)) u64 put_inline(struct record r, int stays_open) {
    if (IDLE) return NO_PLACE;
    if (keeps_values) settle_value();
    keep_turn();
    int is_end = r.kind == FREED && r.order == OF_FRAME;
    r.pos = is_end ? pos_of_end(r.at, r.size, r.pc) : next_pos(r.kind, r.at, r.size, r.pc);
    count_record();
    if (plan) {
        struct record whole = r;
        look_at_block(&whole);
    }
    if (me >= MOST_THREADS) {
        __atomic_fetch_add(&head->unrecorded, 1, __ATOMIC_RELAXED);
        return NO_PLACE;
    }
    if (is_of_frames(r.kind, r.of)) note_frame(r.at);
    note_use_of_stack();
    r.stack = stack_now();
    r.thread = (u16)me;
    if (!stays_open && is_tick(r.kind) && !r.answer && fits_word(r)) return put_word(r, (r.pos >> 16) - 1, r.pos >> 16);
    struct record whole = r;
    return put_long(&whole, 0);
}

/* Nearly all records are of an access in no plan: no part goes by the memory. A struct would be written in
 * parts and read as a whole, for which a processor waits. */
static inline __attribute__((always_inline)) u64 put_plain(int kind, u64 at, u64 size, u64 pc) {
    if (IDLE) return NO_PLACE;
    if (following || plan || me >= MOST_THREADS || size > UINT_MAX || at >> 48 || pc >> 48)
        return put(kind, at, size, pc);
    keep_turn();
    u64 now = ++tick;
    sub = 0;
    count_record();
    note_frame(at);
    note_use_of_stack();
    struct form f = {pc << 16 | (u64)kind << 8, (u64)stack_now() << 32 | size};
    u64 place = put_short(at, f, first_slot_of(f), me, now - 1, now);
    return place != NO_FORM ? place : put_first_access(at, f, me, now);
}

static u64 put_open_record(struct record r) { return put_inline(r, 1); }
static u64 put_record(struct record r) { return put_inline(r, 0); }

/* The record of `size` bytes. */
static inline struct record record_of(int kind, u64 at, u64 size, u64 pc) {
    return (struct record){.kind = (u8)kind, .at = at, .size = size > UINT_MAX ? UINT_MAX : (u32)size, .pc = pc};
}

static u64 put(int kind, u64 at, u64 size, u64 pc) { return put_record(record_of(kind, at, size, pc)); }

static u64 put_of(int of, int kind, u64 at, u64 pc) {
    return put_record((struct record){.kind = (u8)kind, .at = at, .pc = pc, .of = (u8)of});
}

/* What came of a call: no event of the trace, but a tick. */
static u64 put_answer(int kind, u64 at, u64 answer, u64 pc) {
    return put_record((struct record){.kind = (u8)kind, .at = at, .answer = answer, .pc = pc});
}

static int make_calls(void) {
    int way = MAP_PRIVATE | MAP_ANONYMOUS | MAP_NORESERVE;
    long p = syscall(SYS_mmap, NULL, CALLS * sizeof *calls, PROT_READ | PROT_WRITE, way, -1, 0);
    if (p == -1) return 0;
    calls = (struct call *)p;
    return 1;
}

static void end_calls(void) {
    forget_stack();
    if (calls) munmap(calls, CALLS * sizeof *calls);
    calls = NULL;
    depth = known_nodes = 0;
}

void __tsan_func_entry(void *site) {
    if (!calls && !make_calls()) return;
    if (depth < CALLS) {
        calls[depth].site = site_of_call((u64)site);
        calls[depth].body = PC;
        calls[depth].stack = (u64)__builtin_frame_address(0);
        calls[depth].return_to = (u64)site;
        calls[depth].base = *(u64 *)__builtin_frame_address(0);
        calls[depth].end = calls[depth].from = calls[depth].is_shared = 0;
        if (known_nodes > depth) known_nodes = depth;
    }
    depth++;
}

void __tsan_func_exit(void) {
    if (!depth) return;
    if (is_noted_end()) note_end(PC);
    depth--;
}

/* Whether a name is of OpenMP. A program that calls nothing else of libgomp than what the recorder takes is not linked
 * with it. */
static int is_openmp(const char *name) { return !strncmp(name, "GOMP_", 5) || !strncmp(name, "omp_", 4); }

/* The real function of a name that the recorder has taken, or NULL. */
static void *found(const char *name, const char *version) {
    u8 was = inside;
    inside = 1;
    void *f = version ? dlvsym(RTLD_NEXT, name, version) : NULL;
    if (!f) f = dlsym(RTLD_NEXT, name);
    void *library = !f && is_openmp(name) ? dlopen("libgomp.so.1", RTLD_NOW | RTLD_GLOBAL) : NULL;
    if (library) f = dlsym(library, name);
    inside = was;
    return f;
}

static void *next(const char *name, const char *version) {
    void *f = found(name, version);
    if (!f) abort();
    return f;
}

static int is_named(const struct module *m, const char *path) { return !strncmp(m->path, path, MODULE_PATH - 1); }

static struct module *module_at(u64 base, u64 end) {
    for (u64 k = 0; k < head->modules; k++)
        if (head->module[k].base == base && head->module[k].end == end) return &head->module[k];
    return NULL;
}

/* The entry for a library or program, or NULL if there is no room. A library without hooks keeps its entry if it is
 * opened again elsewhere. Of one that was closed, and whose memory another has now, only the name is kept. */
static struct module *module_for(const char *path, u64 base, u64 end) {
    struct module *found = head->modules < MOST_MODULES ? &head->module[head->modules] : NULL;
    for (u64 k = 0; k < head->modules; k++) {
        struct module *m = &head->module[k];
        if (had_hooks(m->base, m->end)) continue;
        if (m->base < end && base < m->end) m->base = m->end = 0;
        if (path[0] && is_named(m, path)) found = m;
    }
    return found;
}

static int note_module(struct dl_phdr_info *info, size_t size, void *none) {
    (void)size, (void)none;
    const char *path = info->dlpi_name;
    u64 base = info->dlpi_addr, end = 0;
    for (int i = 0; i < info->dlpi_phnum; i++) {
        const ElfW(Phdr) *p = &info->dlpi_phdr[i];
        if (p->p_type == PT_LOAD && base + p->p_vaddr + p->p_memsz > end) end = base + p->p_vaddr + p->p_memsz;
    }
    struct module *there = module_at(base, end);
    if (there && (!path[0] || is_named(there, path))) return 0;
    struct module *m = module_for(path, base, end);
    if (!m) return 1;
    /* A closed library with hooks keeps its memory, since records are in it. */
    int is_taken = !!module_at(base, end);
    m->base = is_taken ? 0 : base;
    m->end = is_taken ? 0 : end;
    if (path[0]) strncpy(m->path, path, MODULE_PATH - 1);
    else if (readlink("/proc/self/exe", m->path, MODULE_PATH - 1) < 0) m->path[0] = 0;
    if (m == &head->module[head->modules]) head->modules++;
    return 0;
}

/* Where the program and its libraries lie, for the names of places and variables. */
static void note_modules(void) {
    u8 was = inside;
    inside = 1;
    dl_iterate_phdr(note_module, NULL);
    look_for_shift();
    inside = was;
}
