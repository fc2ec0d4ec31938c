// The lines of the trace that come again and again: a thread does the same at the same place.
#pragma once
#include <string>
#include <vector>
#include "operations.hpp"
#include "places.hpp"

namespace lines {

using operations::Operation;

class Lines {
public:
    Lines() : known(CACHE) {}
    // The place for the line of an operation; its text is empty if it is not known. A meeting has another number
    // each time, so its line is not for here, and that of a try neither: its location depends on more.
    std::string &text_of(const record &one, const Operation &operation);

private:
    struct Known {
        places::Key at{};
        u64 place = 0;
        const char *word = nullptr, *before = nullptr;
        objects::Thing thing = objects::NOTHING;
        int of_thread = -1;
        u16 thread = 0;
        u8 kind = 0;
        std::string text;
    };
    static constexpr size_t CACHE = 1 << 12;
    std::vector<Known> known;
};

}
