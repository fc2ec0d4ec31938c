/* Blocks of the heap in a followed run: after the race, an access of a block that was freed is noted in the plan.
 * Interposes nothing. Runs in the turn of its thread, so no other thread is here. Must not call the heap. */
#define OF_FREED
#include "freed.h"
#include "channels.h"
#include "follow.h"
#include "plan.h"

/* A block whose allocation was recorded. */
struct block {
    u64 start, size, pc;
    u32 thread;
    u8 is_freed;
};
/* Blocks begin at a multiple of this many bytes. */
#define GRAIN 16
#define GRAINS_OF_PAGE 65536
#define PAGES_OF_GRAINS (1ull << 28)
#define MOST_BLOCKS (1u << 24)
/* So much of a block is marked, at most. */
#define MARKED (1ull << 24)

static struct block *blocks;
static u32 block_count;
/* For each grain the number of its block, by pages of grains. */
static u32 **grain_pages;

static void *reserved(u64 size) {
    int way = MAP_PRIVATE | MAP_ANONYMOUS | MAP_NORESERVE;
    long p = syscall(SYS_mmap, NULL, size, PROT_READ | PROT_WRITE, way, -1, 0);
    return p == -1 ? NULL : (void *)p;
}

static int can_note_blocks(void) {
    static u8 tried;
    if (!tried) {
        tried = 1;
        blocks = reserved(MOST_BLOCKS * sizeof *blocks);
        grain_pages = blocks ? reserved(PAGES_OF_GRAINS * sizeof *grain_pages) : NULL;
    }
    return grain_pages != NULL;
}

/* The number at the grain of an address, or NULL if no block has been there. */
static u32 *grain_at(u64 at, int make) {
    u64 grain = at / GRAIN, page = grain / GRAINS_OF_PAGE;
    if (page >= PAGES_OF_GRAINS) return NULL;
    if (!grain_pages[page] && make) grain_pages[page] = reserved(GRAINS_OF_PAGE * sizeof(u32));
    return grain_pages[page] ? &grain_pages[page][grain % GRAINS_OF_PAGE] : NULL;
}

static void mark(u64 start, u64 size, u32 number) {
    u64 end = start + (size < MARKED ? size : MARKED);
    for (u64 at = start; at < end; at += GRAIN) {
        u32 *grain = grain_at(at, number != 0);
        if (grain) *grain = number;
        else at |= (u64)GRAIN * GRAINS_OF_PAGE - GRAIN;
    }
}

static void note_allocated(u64 at, u64 size) {
    mark(at, size ? size : 1, 0);
    if (at % GRAIN || block_count + 1 >= MOST_BLOCKS) return;
    u32 *grain = grain_at(at, 1);
    if (!grain) return;
    *grain = ++block_count;
    blocks[block_count] = (struct block){.start = at, .size = size ? size : 1};
}

static struct block *block_at(u64 at) {
    u32 *grain = grain_at(at, 0);
    return grain && *grain ? &blocks[*grain] : NULL;
}

static void note_freed(struct block *b, u64 pc) {
    b->is_freed = 1, b->thread = me, b->pc = pc;
    mark(b->start, b->size, (u32)(b - blocks));
}

static void note_use(struct block *b, int kind, u64 size, u64 pc) {
    u64 k = plan->uses++;
    if (k >= MOST_USES) return;
    plan->use[k] = (struct use){(u64)kind, me, size, b->thread, as_recorded(pc), as_recorded(b->pc)};
}

static struct block *freed_of(u64 at, u64 size) {
    struct block *b = block_at(at);
    if (!b && size > GRAIN) b = block_at(at + size - 1);
    return b && b->is_freed && at < b->start + b->size && b->start < at + size ? b : NULL;
}

static int is_access(int kind) {
    return kind == READ || kind == WRITE || kind == ATOMIC_READ || kind == ATOMIC_WRITE || kind == ATOMIC_UPDATE;
}

/* Whether a record is the free of a realloc, which comes after the read of the block. The library has done it by then.
 * While the plan is followed, another thread may have been given the block in between. */
static int is_late_free(const struct record *r) {
    static __thread u64 read_at, read_pc;
    int is_late = following && r->kind == FREED && r->at == read_at && r->pc == read_pc;
    read_at = r->kind == READ ? r->at : 0, read_pc = r->pc;
    return is_late;
}

/* Looks at a record that is made. Uses of freed blocks are noted after the race. */
static void look_at_block(const struct record *r) {
    if (!plan || me >= MOST_THREADS || r->of != OF_MEMORY || !can_note_blocks() || is_late_free(r)) return;
    int shows = plan->state == STANDS || plan->state == DONE;
    struct block *b = NULL;
    if (r->kind == ALLOCATED || r->kind == RESIZED) note_allocated(r->at, r->size);
    else if (r->kind == FREED && (b = block_at(r->at)) && b->start == r->at) {
        if (b->is_freed && shows) note_use(b, FREED, b->size, r->pc);
        if (!b->is_freed) note_freed(b, r->pc);
    } else if (shows && is_access(r->kind) && (b = freed_of(r->at, r->size))) note_use(b, r->kind, r->size, r->pc);
}
