// What a record becomes in the trace.
#pragma once
#include <cstring>
#include <vector>
#include "objects.hpp"

namespace operations {

// The number of no part of a variable.
constexpr size_t NO_PART = ~static_cast<size_t>(0);

// A word of the trace and its object: the name of a place in a thing, with a word before it and a thread after it.
// Names are made of what is written alone.
struct Operation {
    const char *word, *before;
    objects::Thing thing;
    u64 place;
    int thread = -1;
    // The how many-th meeting at this place it is, from 1 on.
    u64 meeting = 0;
    // Of an access of a part: its number.
    size_t part = NO_PART;
    bool is(const char *other) const { return !strcmp(word, other); }
    // Whether both are of one variable or lock.
    bool has_name_of(const Operation &other) const {
        return thing == other.thing && place == other.place && thread == other.thread && meeting == other.meeting &&
            !strcmp(before, other.before);
    }
};
using Operations = std::vector<Operation>;

}
