/* What world.c shares. */
#pragma once
#include "recorder.h"
#include "accesses.h"
#include "callers.h"

#define FILLED(at, does) (is_there(at) && (does) ? wrote((at), sizeof *(at), PC) : (void)0)
