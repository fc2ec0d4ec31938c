// What a recording left out, and the first and the last line of a trace, which say so.
#pragma once
#include <cstdio>
#include <string>
#include <vector>
#include "../runtime/format.h"

namespace losses {

// The first line of each trace.
constexpr const char *BEGIN = "recording|begin(RECORDED)|\n";

// A cause, how many of its kind were left out, from which event on, and what they are called if they have names.
struct Loss {
    std::string cause;
    u64 count, from;
    std::vector<std::string> names;
};

class Losses {
public:
    // Nothing is added if the count is 0.
    void add(const std::string &cause, u64 count, u64 from, const std::vector<std::string> &names = {});
    // Adds a cause that leaves nothing out that could be counted.
    void add_uncounted(const std::string &cause, u64 from);
    // The last line of the trace: that it is whole, or how much was left out, from which event on, and why.
    std::string end() const;
    // Prints lines `loss CAUSE COUNT`, and lines `lost CAUSE NAME`.
    void print(FILE *to) const;

private:
    std::vector<Loss> all;
};

}
