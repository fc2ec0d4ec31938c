/* The values that accesses of up to 8 bytes read and wrote, with `record/run --values`. The value of a read is taken at
 * its hook, in the thread's turn. The value of a write is taken at the thread's next hook, before the turn is given
 * away. Interposes nothing. A write without a value is no harm: its readers keep it as their writer. So what may be
 * wrong is dropped: the turn was taken by force, or a signal's handler came between. Must not settle a value with the
 * turns' lock held, since its words may need room. */
#define OF_VALUES
#include "values.h"
#include "turns.h"
#include "words.h"

#define MOST_VALUE 8

static u8 keeps_values;
/* The write of this thread whose value is not known yet. */
static __thread u64 open_write = NO_PLACE, open_at;
static __thread u32 open_size;

static u64 bytes_at(u64 at, u64 size) {
    u64 value = 0;
    for (u64 k = 0; k < size; k++) value |= (u64)((const volatile u8 *)at)[k] << 8 * k;
    return value;
}

/* Before this thread goes on to another hook, or gives the turn away. */
static void settle_value(void) {
    u64 place = open_write;
    if (place == NO_PLACE) return;
    open_write = NO_PLACE;
    if (me < MOST_THREADS && holder == me) put_value(place, 1, bytes_at(open_at, open_size));
}

/* The access of the last hook may not have been made: a handler interrupts it. */
static void forget_value(void) { open_write = NO_PLACE; }

/* After the record of an access, right before the access. */
static void note_value(u64 place, int kind, const volatile void *at, u64 size) {
    if (place == NO_PLACE || size > MOST_VALUE || me >= MOST_THREADS || holder != me) return;
    if (kind != WRITE && kind != ATOMIC_WRITE) put_value(place, 0, bytes_at((u64)at, size));
    if (kind != READ && kind != ATOMIC_READ) open_write = place, open_at = (u64)at, open_size = (u32)size;
}
