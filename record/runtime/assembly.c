/* Lines of assembly, which have hooks if our pass finds memory among their operands. Interposes nothing; the pass puts
 * the calls in. Gives the token before the first operand only, and must not give it later: another thread's access would
 * come between the records and the instructions. */
#include "accesses.h"
#include "atomics.h"
#include "callers.h"
#include "events.h"

static void assembly(int kind, void *at, u64 size, int is_first, u64 pc) {
    int is_plain = kind == READ || kind == WRITE;
    if (IDLE) return;
    if (is_first && is_plain) access_(kind, at, size, pc);
    else if (is_first) atomic_(kind, at, size, SC, pc);
    else {
        struct record r = record_of(kind, (u64)at, size, pc);
        r.order = is_plain ? 0 : SC;
        put_record(r);
    }
}

#define OPERANDS(name, kind) \
    void __tsan_assembly_##name(void *at, unsigned long size, int is_first) { assembly(kind, at, size, is_first, PC); }
OPERANDS(read, READ)
OPERANDS(write, WRITE)
OPERANDS(load, ATOMIC_READ)
OPERANDS(store, ATOMIC_WRITE)
OPERANDS(update, ATOMIC_UPDATE)
