// Relaxed atomics: in C++ they order nothing, so they are no events of the trace. They are written as atomics with
// order beside plain accesses of the same variable, and where a lock gives a write and a read of it their order.
#pragma once
#include <map>
#include <memory>
#include <unordered_map>
#include <utility>
#include <vector>
#include "forks.hpp"
#include "releases.hpp"

namespace relaxed {

// A lock that a thread has; readers share it.
struct Held {
    u32 thing;
    u64 place;
    bool shared;
};

// How an atomic access is written: not at all; as a read alone, since a free may meet it; as a write alone; as what it
// is.
enum Form { NOTHING, READS, WRITES, WHOLE };

// A variable of more plain accesses than this is written with order.
constexpr size_t MOST_PLAIN = 64;

// The accesses that are written with more order than they have: how many, and of each place of code the calls of the
// first one.
struct Stronger {
    u64 count = 0;
    std::map<u64, u32> places;
    // Adds those of later records.
    void join(const Stronger &later) {
        count += later.count;
        places.insert(later.places.begin(), later.places.end());
    }
};

class Relaxed {
public:
    // Each record that happened, in their order.
    void see(const record &one);
    // Whether parts are needed: only if an atomic access is relaxed or one-way.
    bool wants_parts() const { return there; }
    void see_part(u64 number, const record &one, size_t part);
    // Each lock that is taken or let go, and each atomic access of a part, in their order.
    void see_lock(u16 thread, const Held &lock, bool takes);
    void see_atomic(u64 number, const record &one, size_t part);
    // Judges what was seen of each part.
    void judge(const forks::Forks &forks);
    // How an atomic access of some parts is written, once all parts are judged. If it gets more order than it has, it is
    // counted.
    Form form_of(u64 number, const record &one, const std::vector<size_t> &of, Stronger &stronger) const;
    releases::Releases orders;

private:
    using Locks = std::shared_ptr<const std::vector<Held>>;
    // An atomic access, and what its thread had.
    struct Locked {
        u64 number = 0;
        Locks locks;
    };
    // The first plain accesses of a part, and the frees of its block; for each thread its first and its last atomic
    // access; the last atomic write, and for each thread the last read since.
    struct Part {
        std::vector<forks::Step> plain, freed;
        std::map<u16, forks::Ends> atomic;
        bool pure = false, meets_free = false, any_write = false;
        u16 writer = 0;
        Locked write;
        std::map<u16, Locked> reads;
    };
    void order(const Locked &first, const Locked &second);
    static void judge_part(const forks::Forks &forks, Part &seen);
    bool there = false;
    std::unordered_map<size_t, Part> parts;
    std::unordered_map<u16, Locks> held;
    // The records that a lock orders.
    std::vector<bool> ordered;
};

}
