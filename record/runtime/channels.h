/* What channels.c shares. */
#pragma once
#include "recorder.h"
#include "callers.h"
#include "descriptors.h"
#include "events.h"
#include "turns.h"
#ifdef OF_CHANNELS
#define SHARED static
#else
#define SHARED OTHERS
#endif

/* How a call on a channel is to be made: in the turn, without it, or not since a handler came. */
enum { WITHOUT_TURN, IN_TURN, INTERRUPTED };
#define ON_CHANNEL(f, channel, what, flags, call) \
    ({ \
        int how_ = comes_at_once(f, channel, what, flags); \
        how_ == INTERRUPTED ? (errno = EINTR, -1) : how_ == IN_TURN ? (call) : OUTSIDE(call); \
    })
/* `address` and `size` are where the address of who sent is wanted. */
#define RECEIVES(name, given, passed_on, f, flags, address, size, ...) \
    ssize_t name given { \
        const socklen_t *size_ = (size); \
        socklen_t room = size_ ? *size_ : 0; \
        static ssize_t(*real) given; \
        if (!real) real = (ssize_t(*) given)next(#name, NULL); \
        ssize_t bytes = received_by(f, ON_CHANNEL(f, in_of(f), POLLIN, flags, real passed_on), flags, PC); \
        goes_over(WRITE, __VA_ARGS__, bytes, PC); \
        wrote_address(bytes >= 0, (address), size_, room, PC); \
        return bytes; \
    }
#define SENDS(name, given, passed_on, f, flags, ...) \
    ssize_t name given { \
        static ssize_t(*real) given; \
        if (!real) real = (ssize_t(*) given)next(#name, NULL); \
        goes_over(READ, __VA_ARGS__, SSIZE_MAX, PC); \
        sends(f, PC); \
        return sent(f, ON_CHANNEL(f, out_of(f), POLLOUT, flags, real passed_on)); \
    }

SHARED int at_once(int f, short what);
SHARED int comes_at_once(int f, u32 channel, short what, int flags);
SHARED ssize_t received_by(int f, ssize_t n, int flags, u64 pc);
SHARED void sends(int f, u64 pc);
SHARED ssize_t sent(int f, ssize_t n);
SHARED ssize_t read_at(int f, void *to, size_t n, u64 pc);
SHARED ssize_t write_at(int f, const void *from, size_t n, u64 pc);
SHARED void goes_over(int kind, const struct iovec *v, size_t pieces, ssize_t bytes, u64 pc);
SHARED size_t pieces_of(int n);
SHARED void wrote_address(int there, const void *a, const socklen_t *n, socklen_t room, u64 pc);
#undef SHARED
