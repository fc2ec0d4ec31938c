// The order that forks and joins alone give.
#pragma once
#include <unordered_map>
#include <utility>
#include "../runtime/format.h"

namespace forks {

// A record and its thread.
struct Step {
    u64 number;
    u16 thread;
};

// The first and the last record of a thread.
using Ends = std::pair<u64, u64>;

class Forks {
public:
    // Each record that happened, in their order.
    void see(u64 number, const record &one);
    // Whether forks and joins alone order a record with all records of another thread between two ends.
    bool order(const Step &step, u16 other, const Ends &ends) const;

private:
    bool comes_after(u64 thread, u64 number, u64 other) const;
    bool comes_before(u64 thread, u64 number, u64 other) const;
    std::unordered_map<u64, Step> forked, joined;
};

}
