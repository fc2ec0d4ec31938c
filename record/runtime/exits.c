/* Futures that become ready when a thread ends, such as by `set_value_at_thread_exit`: code of the library of C++
 * makes them so, which has no hooks. A thread that waits for one reads its state by the headers. Interposes
 * _Make_ready::_M_set by the linker's --wrap. Must not put a record inside the library's call, which only lists the
 * state: becomes_ready puts it at the thread's end. */
#include "atomics.h"
#include "callers.h"

/* What the library calls at the end of the thread, and the weak pointer to the state of the future. */
struct at_exit {
    void *next;
    void (*makes_ready)(void *);
    u8 *state;
    struct {
        void *table;
        int uses, watches;
    } * counts;
};
#define STATUS_IN_STATE 16

static void (*makes_ready)(void *);
/* The place of the call. */
static __thread u64 ready_pc;

static void becomes_ready(void *p) {
    struct at_exit *e = p;
    if (e->counts && e->counts->uses > 0)
        atomic_(ATOMIC_WRITE, e->state + STATUS_IN_STATE, sizeof(u32), __ATOMIC_RELEASE, ready_pc);
    makes_ready(p);
}

WEAKLY void __real__ZNSt13__future_base13_State_baseV211_Make_ready6_M_setEv(struct at_exit *e);
void __wrap__ZNSt13__future_base13_State_baseV211_Make_ready6_M_setEv(struct at_exit *e) {
    __real__ZNSt13__future_base13_State_baseV211_Make_ready6_M_setEv(e);
    if (IDLE) return;
    ready_pc = PC;
    makes_ready = e->makes_ready;
    e->makes_ready = becomes_ready;
}
