/* Connections between sockets of this process, by address or by path: a channel for each way, and one more that
 * connect() passes before accept(). Both ends know the two addresses, the connecting end as its own and the other's.
 * Interposes listen and connect; world.c has accept. Must not call malloc: __libc_malloc keeps the table. */
#define OF_SOCKETS
#include "sockets.h"
#include "accesses.h"
#include "atomics.h"
#include "callers.h"
#include "descriptors.h"
#include "events.h"
#include "plan.h"
#include "turns.h"

#define MOST_ADDRESS 32
/* The byte of an address that says that it is a path, whose letters are mixed into the first ones. */
#define IS_PATH 20
struct address {
    u8 bytes[MOST_ADDRESS];
};
struct connection {
    struct address from, to;
    u32 way;
    u8 known;
    struct connection *next;
};
static struct connection *connections;
/* Descriptors on which the process listens. */
struct listener {
    int f;
    struct listener *next;
};
static struct listener *listeners;

/* What differs between two ends of a family: IPv4 and IPv6 alike. */
static int address_of(const struct sockaddr_storage *a, struct address *to) {
    const struct sockaddr_in *four = (const void *)a;
    const struct sockaddr_in6 *six = (const void *)a;
    *to = (struct address){{0}};
    if (a->ss_family == AF_INET) {
        to->bytes[10] = to->bytes[11] = 0xff;
        memcpy(to->bytes + 12, &four->sin_addr, 4), memcpy(to->bytes + 16, &four->sin_port, 2);
    } else if (a->ss_family == AF_INET6) {
        memcpy(to->bytes, &six->sin6_addr, 16), memcpy(to->bytes + 16, &six->sin6_port, 2);
    } else if (a->ss_family == AF_UNIX) {
        u64 mixed = 0xcbf29ce484222325ull;
        const char *path = ((const struct sockaddr_un *)a)->sun_path;
        for (size_t k = 0; k < sizeof((struct sockaddr_un *)0)->sun_path && path[k]; k++)
            mixed = (mixed ^ (u8)path[k]) * 0x100000001b3ull;
        memcpy(to->bytes, &mixed, sizeof mixed), to->bytes[IS_PATH] = 1;
    } else {
        return 0;
    }
    return 1;
}

static int address_by(long call, int f, struct address *to) {
    struct sockaddr_storage a = {0};
    socklen_t n = sizeof a;
    return syscall(call, f, &a, &n) == 0 && address_of(&a, to);
}

/* Whether a listening socket of this process has this address, or its port on all addresses. */
static int is_listened_to(const struct address *to) {
    static const u8 any[16], any_four[16] = {[10] = 0xff, 0xff};
    for (struct listener *l = listeners; l; l = l->next) {
        struct address own;
        if (!address_by(SYS_getsockname, l->f, &own) || memcmp(own.bytes + 16, to->bytes + 16, 2)) continue;
        if (!memcmp(own.bytes, to->bytes, 16) || !memcmp(own.bytes, any, 16) || !memcmp(own.bytes, any_four, 16))
            return 1;
    }
    return 0;
}

static int is_stream(int f) {
    int type = 0;
    socklen_t n = sizeof type;
    return syscall(SYS_getsockopt, f, SOL_SOCKET, SO_TYPE, &type, &n) == 0 && type == SOCK_STREAM;
}

int listen(int f, int n) {
    REAL(listen, int, int, int);
    struct listener *l = IDLE ? NULL : __libc_malloc(sizeof *l);
    if (!IDLE) keep_turn();
    int answer = real(f, n);
    if (l) *l = (struct listener){f, listeners}, listeners = l;
    return answer;
}

/* A connection of a socket to an address where this process listens. */
static struct connection *connection_to(int f, const struct sockaddr *a, socklen_t n) {
    struct sockaddr_storage whole = {0};
    struct address to;
    if (!a || n > sizeof whole || !is_known(f) || !is_stream(f)) return NULL;
    memcpy(&whole, a, n);
    struct connection *c = address_of(&whole, &to) && is_listened_to(&to) ? __libc_calloc(1, sizeof *c) : NULL;
    if (!c) return NULL;
    c->to = to;
    c->way = __atomic_add_fetch(&channels, 3, SC);
    set_end(f, c->way, c->way - 1, STREAM);
    lock_turns();
    c->next = connections, connections = c;
    unlock_turns();
    return c;
}

/* Before a call of connect(): one to this process passes what accept() comes after. */
static struct connection *begins_to_connect(int f, const struct sockaddr *a, socklen_t n, u64 pc) {
    if (IDLE || has_forked) return NULL;
    maybe_give();
    inside = 1;
    struct connection *c = connection_to(f, a, n);
    inside = 0;
    if (c) pass_of(OF_CHANNEL, c->way - 2, pc);
    return c;
}

/* After it, and before the thread waits for its turn: accept() in another thread may have returned. */
static void has_connected(int f, struct connection *c) {
    int error = errno;
    inside = 1;
    int there = address_by(SYS_getsockname, f, &c->from);
    inside = 0;
    __atomic_store_n(&c->known, there ? 1 : 2, SC);
    errno = error;
}

int connect(int f, const struct sockaddr *a, socklen_t n) {
    REAL(connect, int, int, const struct sockaddr *, socklen_t);
    if (IDLE) return real(f, a, n);
    struct connection *c = begins_to_connect(f, a, n, PC);
    /* Connections to a path are accepted in the order in which they were made: it is that of turns. */
    if (!c || !c->to.bytes[IS_PATH]) give();
    int answer = real(f, a, n);
    if (c) has_connected(f, c);
    take();
    return answer;
}

/* The connection of a socket that was accepted, taken out of the list; a call that is about to tell its address is
 * waited for. */
static struct connection *connection_of(const struct address *from, const struct address *to) {
    for (int pending = 1; pending;) {
        pending = 0;
        struct connection **oldest = NULL;
        lock_turns();
        for (struct connection **at = &connections; *at; at = &(*at)->next) {
            struct connection *c = *at;
            int known = __atomic_load_n(&c->known, SC);
            if (memcmp(&c->to.bytes[16], &to->bytes[16], 2) || c->to.bytes[IS_PATH] != to->bytes[IS_PATH]) continue;
            if (to->bytes[IS_PATH] && memcmp(&c->to, to, sizeof *to)) continue;
            pending |= !known;
            if (known == 1 && !memcmp(&c->from, from, sizeof *from)) oldest = at;
        }
        struct connection *found = oldest ? *oldest : NULL;
        if (found) *oldest = found->next;
        unlock_turns();
        if (found) return found;
        if (pending) syscall(SYS_sched_yield);
    }
    return NULL;
}

/* After accept(), in the thread's turn. */
static int is_accepted(int f, u64 pc) {
    struct address from, to;
    if (IDLE || !is_known(f) || !connections) return f;
    int error = errno;
    inside = 1;
    int there = address_by(SYS_getpeername, f, &from) && address_by(SYS_getsockname, f, &to);
    struct connection *c = there ? connection_of(&from, &to) : NULL;
    inside = 0;
    if (c) {
        set_end(f, c->way - 1, c->way, STREAM);
        pass_of(OF_CHANNEL, c->way - 2, pc);
        __libc_free(c);
    }
    errno = error;
    return f;
}
