/* What ostreams.c shares. */
#pragma once
#include "recorder.h"
#ifdef OF_OSTREAMS
#define SHARED static
#else
#define SHARED OTHERS
#endif

/* Where the classes of the library have the state and the buffer of a stream, and the place of the next letter in a
 * buffer. */
#define STATE_IN_STREAM 32
#define NEXT_IN_BUFFER 40

SHARED char *shared_of_stream(void *stream);
SHARED char *buffer_of_stream(void *stream);
#undef SHARED
