// The order that releases and acquires give beyond that of an atomic variable's own events: that of fences, and that of
// a release whose value another thread's read-modify-write changed before it was acquired.
#pragma once
#include <cstddef>
#include <unordered_map>
#include <unordered_set>
#include <vector>
#include "forks.hpp"

namespace releases {

// The memory orders of C++, as the compiler numbers them.
enum { RELAXED, CONSUME, ACQUIRES, RELEASES, BOTH, SEQ_CST };

// Records that release: of each thread the last one, which comes after its earlier ones. An access that changes a value
// of more such records is written as one that acquires them all.
using Sources = std::vector<forks::Step>;
constexpr size_t MOST_SOURCES = 64;

class Releases {
public:
    // Each fence, and each atomic access of a variable, in their order.
    void see_fence(u64 number, const record &one);
    void see(u64 number, const record &one, size_t variable);
    // Which releases a record acquires, and the number of the release that it is if another record acquires it; or 0.
    const Sources &acquired(u64 number) const;
    u64 release(u64 number) const;
    // Whether an acquire read sees a relaxed store, which gives no order, and an earlier write of the trace would give it
    // one.
    bool sees_relaxed(u64 number) const { return without_order.count(number); }
    // Whether a read-modify-write releases alone, so it is written as a write.
    bool is_write_alone(u64 number) const { return writes_alone.count(number); }

private:
    // What is known of a variable's value: the releases that an acquire of it gets, the last write that is an event,
    // and whether the last store was relaxed.
    struct Value {
        Sources sources;
        u64 last_event = 0;
        u16 writer = 0;
        bool any_event = false, relaxed_store = false;
    };
    void acquire(u64 number, const Sources &sources);
    void see_read(u64 number, const record &one, const Value &value);
    void see_write(u64 number, const record &one, Value &value);
    std::unordered_map<size_t, Value> values;
    std::unordered_map<u16, u64> release_fences;
    std::unordered_map<u16, Sources> pending;
    std::unordered_map<u64, Sources> acquires;
    std::unordered_map<u64, u64> numbers;
    std::unordered_set<u64> without_order, writes_alone;
};

}
