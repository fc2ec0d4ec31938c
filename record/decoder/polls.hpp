// Loops that poll: a thread looks at one value again and again, at one place, and nothing else of it comes between. Of
// such looks the first and the last are written. docs/RECORDING.md says why no verdict changes.
#pragma once
#include <unordered_map>
#include <vector>
#include "operations.hpp"
#include "places.hpp"

namespace polls {

using operations::Operation;
using operations::Operations;

class Polls {
public:
    // Each record that happened, in their order.
    void see(const record &one);
    // Whether some thread made two looks in turn, so that the looks must be searched.
    bool is_wanted() const { return any; }
    // What each record becomes in the trace, in their order.
    void see_event(size_t number, const record &one, const Operations &operations);
    bool is_left_out(size_t number) const { return number < left_out.size() && left_out[number]; }

private:
    // The looks of a thread at one value: what each is in the trace, and the numbers of the first and of the last.
    struct Looks {
        places::Key place{};
        Operations operations;
        size_t first = 0, last = 0;
        bool are_there = false, are_listed = false;
    };
    struct Before {
        u64 at = 0, pc = 0;
    };
    void end_at(const Operation &write);
    void begin(size_t number, const record &one, const Operations &operations);
    void go_on(size_t number, Looks &mine);
    bool any = false;
    std::unordered_map<u16, Before> before;
    std::unordered_map<u16, Looks> looks;
    // The threads that look at something, with some that no longer do.
    std::vector<u16> looking;
    std::vector<bool> left_out;
};

}
