/* Libraries that are opened as the program runs. One thread opens them at a time, as the C library has it, and the
 * others wait in the recorder. A thread that gets a library which is open already comes after its constructors.
 * Interposes dlopen. Must not hold the turns' lock in the call, since constructors have hooks. */
#include "accesses.h"
#include "callers.h"
#include "descriptors.h"
#include "events.h"
#include "meetings.h"
#include "turns.h"

static const char loader;

static struct opened {
    void *library;
    struct opened *next;
} * all_opened;

/* Whether the library is opened for the first time. In the thread's turn. */
static int is_first_open(void *library) {
    for (struct opened *o = all_opened; o; o = o->next)
        if (o->library == library) return 0;
    struct opened *made = __libc_malloc(sizeof *made);
    if (made) *made = (struct opened){library, all_opened}, all_opened = made;
    return 1;
}

void *dlopen(const char *path, int how) {
    REAL(dlopen, void *, const char *, int);
    if (IDLE || !path) return real(path, how);
    maybe_give();
    struct meeting *m = meeting_of(&loader);
    wait_for_once(m);
    u32 before = m->who;
    begin_once(m);
    void *library = real(path, how);
    m->who = before;
    if (before == NOBODY) unpark(m->at);
    if (!library) return NULL;
    keep_turn();
    note_modules();
    int kind = is_first_open(library) ? ARRIVED : WENT_ON;
    meet(kind, OF_CHANNEL, channel_of(LIBRARY, (u64)library), 1, PC);
    return library;
}
