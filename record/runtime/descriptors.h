/* What descriptors.c shares. */
#pragma once
#include "recorder.h"
#include "events.h"
#include "sockets.h"
#ifdef OF_DESCRIPTORS
#define SHARED static
#else
#define SHARED OTHERS
#endif

#define MOST_DESCRIPTORS 65536
static struct end {
    u32 reads, writes;
    u8 is_pipe, is_stream, is_signals, file_lock;
} ends[MOST_DESCRIPTORS];
/* The channel of a queue, of semaphores, of what a poll watches, of a library that is opened, of a signal, or of a file:
 * by their kind and their number in the system. */
enum { QUEUE, MESSAGES, SEMAPHORES, WATCHED, LIBRARY, SIGNAL, NAMED_PIPE, FILE_LOCK };
static struct numbered {
    u64 kind, number;
    u32 channel;
    /* What is watched. */
    int f;
    struct numbered *next;
} * all_numbered[1024];
/* What kind of channel a descriptor is an end of. In a stream each byte comes once, in the order of the sends. */
enum { NO_STREAM, STREAM, PIPE };

SHARED u32 channels;
SHARED volatile u8 has_forked;

SHARED int is_known(int f);
SHARED u32 in_of(int f);
SHARED u32 out_of(int f);
SHARED const void *key_of(u32 channel);
SHARED struct numbered *numbered_of(u64 kind, u64 number);
SHARED u32 channel_of(u64 kind, u64 number);
SHARED void pass_of(int of, u64 at, u64 pc);
SHARED int gives(int f, u64 pc);
SHARED void set_end(int f, u32 reads, u32 writes, int kind);
SHARED u64 pass_bytes(int f, int way, u64 bytes, u64 pc);
SHARED void closes(int f, u64 pc);
SHARED void closed(int f);
#undef SHARED
