// Which parts of variables can't race, since forks and joins alone order all their conflicting accesses. Nothing else
// passes on by them: docs/RECORDING.md has the proof. Their accesses are left out of the trace.
#pragma once
#include <set>
#include <unordered_map>
#include <utility>
#include <vector>
#include "moments.hpp"

namespace leaving {

using moments::Moment;
using moments::Moments;

// Sets of moments, or of other numbers, each with a number: many parts have the same set. 0 is the empty one.
using Set = u32;
// The set of a part that more moments read, or that had no room: a later write is in no order with it.
constexpr Set TOO_MANY = ~0u;
constexpr size_t MOST_MOMENTS = 1024, MOST_ROOM = 1 << 22;

class Sets {
public:
    Sets();
    // The set with one moment more.
    Set with(Set set, Moment moment);
    // Whether all moments of a set come before another one.
    bool are_before(Set set, const Moments &order, Moment moment) { return judge(set, order, moment, true); }
    // Whether they come after another one.
    bool are_after(Set set, const Moments &order, Moment moment) { return judge(set, order, moment, false); }
    const std::vector<Moment> &members(Set set) const { return all[set]; }
    // How many sets there are, and how much room they take.
    size_t count() const { return all.size(); }
    size_t room() const { return used; }

private:
    // What was found last of a set and a moment.
    struct Found {
        Set set = TOO_MANY, with = TOO_MANY;
        Moment moment = moments::NO_MOMENT;
    };
    struct Judged {
        Set set = TOO_MANY;
        Moment moment = moments::NO_MOMENT;
        bool is_so = false, before = false;
    };
    static constexpr size_t CACHE = 1 << 12;
    static size_t place_of(Set set, Moment moment) { return (set * 0x9e3779b1u ^ moment * 0x85ebca6bu) >> 20; }
    Set make(Set set, Moment moment);
    bool judge(Set set, const Moments &order, Moment moment, bool before);
    std::vector<std::vector<Moment>> all;
    std::unordered_map<u64, Set> made;
    size_t used = 0;
    std::vector<Found> found;
    std::vector<Judged> judged;
};

// What a piece of the recording does with a part: its first write and the reads before, its last write and the reads
// since, and the moment and the kind of the last access. An access that changes nothing is counted alone.
struct Part {
    Moment first_write = moments::NO_MOMENT;
    Set first_reads = 0;
    Moment write = moments::NO_MOMENT;
    Set reads = 0;
    Moment last = moments::NO_MOMENT;
    u16 first = 0;
    bool any : 1, several : 1, written : 1, stays : 1, last_writes : 1;
    u64 accesses = 0;
    Part() : any(false), several(false), written(false), stays(false), last_writes(false) {}
};

// The parts in a piece of the recording.
class Leaving {
public:
    Leaving(const Moments &order, size_t count) : order(order), parts(count) {}
    // Counts an access that is no atomic one. Whether it has the moment and the kind that the last one had: then it
    // changes nothing.
    bool is_as_before(size_t part, Moment now, bool writes) {
        Part &seen = parts[part];
        seen.accesses++;
        if (seen.last == now && seen.last_writes == writes) return true;
        seen.last = now, seen.last_writes = writes;
        return false;
    }
    // Sees who comes to a part. Whether nobody came before.
    bool see_thread(size_t part, u16 thread, bool writes) {
        Part &seen = parts[part];
        bool is_first = !seen.any;
        if (is_first) seen.any = true, seen.first = thread;
        if (seen.first != thread) seen.several = true;
        if (writes) seen.written = true;
        return is_first;
    }
    // Judges an access that is not as before.
    void see_access(size_t part, Moment now, bool writes);
    // Atomic accesses order other events, so the part stays.
    void keep(size_t part) { parts[part].stays = true; }
    const Part &of(size_t part) const { return parts[part]; }
    Sets sets;

private:
    const Moments &order;
    std::vector<Part> parts;
};

// Judges parts by what pieces did with them, one piece after another, as if all had gone by at once.
class Joined {
public:
    Joined(const Moments &order, std::vector<Leaving> &pieces) : order(order), pieces(pieces), met(pieces.size()) {}
    // Whether the part stays.
    bool stays(size_t part);
    // Whether each set has room too if all goes by at once. Else nothing is known.
    bool are_sure() const;

private:
    // The reads of a part since its last write: pieces, and the sets that these have.
    using Reads = std::vector<std::pair<size_t, Set>>;
    // Reads that a piece went on with, the last ones and all.
    struct Met {
        Reads last;
        std::set<Reads> all;
    };
    static constexpr size_t MOST_READS = 4096;
    void see_reads(Met &its);
    bool is_in_order(size_t piece, const Part &part);
    bool are_too_many(Set more, size_t piece) const;
    const Moments &order;
    std::vector<Leaving> &pieces;
    Moment write = moments::NO_MOMENT;
    Reads reads;
    std::vector<Met> met;
    bool is_unsure = false;
};

}
