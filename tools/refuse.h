/* What refuse.c and disk.c know of each other. */
#include <errno.h>
#include <stddef.h>

enum kind { NONE, MEMORY, READ, WRITE, OPEN, THREAD, PWRITE, FTRUNCATE, FSYNC, FLOCK, LINK };
enum how { FAILS, INTERRUPTED, SHORT, NOTHING, CUT };

/* How the call fails that is refused. */
extern enum how refuse_how;

/* Counts a call of this kind, and says whether it is the one that fails. */
int is_refused(enum kind called);

/* Notes that an answer is written, if this is standard output. */
void note_answer(int file);

static inline long failed(int number) {
    errno = number;
    return -1;
}
