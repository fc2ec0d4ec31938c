/* What signals.c shares. */
#pragma once
#include "recorder.h"

enum { SIGNAL_WORD = 8 };
