// Which things two threads access, at least one by a write, and in which parts.
#pragma once
#include <algorithm>
#include <array>
#include <unordered_map>
#include <utility>
#include <vector>
#include "objects.hpp"

namespace parts {

using objects::Thing;

// Who came to a thing: the first thread, whether there was another, whether one wrote.
struct Seen {
    u16 first = 0;
    bool any = false, several = false, written = false, chosen = false, ordered = false, stays = false;
    void see(u16 thread, bool writes) {
        if (!any) any = true, first = thread;
        if (first != thread) several = true;
        if (writes) written = true;
    }
    // Adds who came later.
    void join(const Seen &later) {
        if (!later.any) return;
        see(later.first, later.written);
        several |= later.several;
    }
    bool shared() const { return several && written && !ordered; }
};

// A number for each thing. Blocks are many and lie side by side.
template <class T> class PerThing {
public:
    T &operator[](Thing thing) {
        std::vector<T> &side = thing >= objects::LASTING ? lasting : blocks;
        size_t at = thing % objects::LASTING;
        if (at >= side.size()) side.resize(at + 1 + at / 2);
        return side[at];
    }
    // What is kept of a thing; nothing if none is.
    T of(Thing thing) const {
        const std::vector<T> &side = thing >= objects::LASTING ? lasting : blocks;
        size_t at = thing % objects::LASTING;
        return at < side.size() ? side[at] : T{};
    }
    // Adds what another has of each thing.
    void join(const PerThing &later) {
        for (size_t k = 0; k < later.blocks.size(); k++) (*this)[static_cast<Thing>(k)].join(later.blocks[k]);
        for (size_t k = 0; k < later.lasting.size(); k++)
            (*this)[objects::LASTING + static_cast<Thing>(k)].join(later.lasting[k]);
    }

private:
    std::vector<T> blocks, lasting;
};

// The ends of the accesses to one thing, in rising order once they are settled, and the number of its first part.
class Cuts {
public:
    void add(u64 end) {
        u64 word = end / BITS;
        if (word < marks.size() && marks[word] >> end % BITS & 1) return;
        end < MARKED ? mark(end) : add_far(end);
    }
    // Adds the ends that another piece of the recording has, if neither is settled.
    void join(const Cuts &later);
    void settle();
    // The parts from `start` to `end`: the first one, and the one after the last.
    std::pair<size_t, size_t> between(u64 start, u64 end) const { return {from(start), from(std::max(start, end))}; }
    u64 at(size_t part) const { return ends[part]; }
    size_t size() const { return ends.size(); }
    // Whether an end takes a search to be added. Places in frames are that far.
    static bool is_far(u64 end) { return end >= MARKED; }
    // Whether all parts have as many bytes, so that the part of a place needs no search.
    bool is_even() const { return step; }
    size_t first = 0;

private:
    static constexpr u64 BITS = 64, MARKED = 1 << 26;
    void mark(u64 end);
    void add_far(u64 end);
    void find_step();
    // The first part that begins at a place or after it.
    size_t from(u64 place) const {
        if (!step || place < ends[0] || place > ends.back()) return search(place);
        u64 behind = place - ends[0] + step - 1;
        return shift < BITS ? behind >> shift : behind / step;
    }
    size_t search(u64 place) const;
    std::vector<u64> ends;
    // A bit for each end below MARKED, until they are settled.
    std::vector<u64> marks;
    size_t settled = 0;
    // How many bytes each part has if all have as many, and its binary logarithm if it is a power of two.
    u64 step = 0, shift = BITS;
};

// An access of more parts than this may give its first ones only, if all accesses have more parts beyond than there is
// room for. Then it gives the largest number of MORE_PARTS that there is room for.
constexpr size_t MOST_PARTS = 64, ROOM_BEYOND = 131072;
constexpr std::array<size_t, 3> MORE_PARTS = {65536, 4096, 512};

// Workers go over parts side by side if these are not more, all workers together: each takes 40 bytes a part.
constexpr size_t MOST_BESIDE = 1 << 23;

// How many parts beyond MOST_PARTS all accesses would give by each number of MORE_PARTS.
using Beyond = std::array<size_t, MORE_PARTS.size()>;
inline void add_beyond(Beyond &to, size_t parts, u64 times) {
    for (size_t k = 0; k < to.size(); k++) to[k] += times * (std::min(parts, MORE_PARTS[k]) - MOST_PARTS);
}

// The parts of an access: the first, the one after the last, and the one after the last written.
struct Span {
    Thing thing = objects::NOTHING;
    u64 place = 0, size = 0;
    size_t from = 0, to = 0, end = 0;
};

// The wide accesses, which may have more parts than MOST_PARTS: each with how often it came.
class Wide {
public:
    struct Access {
        Thing thing;
        u64 place, size;
        bool operator==(const Access &other) const {
            return thing == other.thing && place == other.place && size == other.size;
        }
    };
    struct Hash {
        size_t operator()(const Access &one) const {
            return (one.thing * 0x9e3779b97f4a7c15ull ^ one.place) * 0xc2b2ae3d27d4eb4full ^ one.size;
        }
    };
    using All = std::unordered_map<Access, u64, Hash>;
    void see(const Access &one) {
        if (is_full) return;
        counts[one]++;
        if (counts.size() <= MOST) return;
        is_full = true;
        counts.clear();
    }
    void join(const Wide &later) {
        is_full |= later.is_full;
        for (auto &one : later.counts) counts[one.first] += one.second;
        if (counts.size() > MOST) is_full = true;
        if (is_full) counts.clear();
    }
    // Whether all are known: at most MOST are kept.
    bool are_known() const { return !is_full; }
    const All &all() const { return counts; }

private:
    static constexpr size_t MOST = 1 << 16;
    All counts;
    bool is_full = false;
};

// The spans of accesses that come again and again.
class Spans {
public:
    Spans() : known(CACHE) {}
    // The place for an access; `is_of` says whether it is known.
    Span &place_of(Thing thing, u64 place) {
        u64 mixed = (place ^ static_cast<u64>(thing) << 40) * 0x9e3779b97f4a7c15ull >> 48;
        return known[mixed % CACHE];
    }
    static bool is_of(const Span &span, Thing thing, u64 place, u64 size) {
        return span.thing == thing && span.place == place && span.size == size;
    }
    void forget() { std::fill(known.begin(), known.end(), Span{}); }

private:
    static constexpr size_t CACHE = 1 << 15;
    std::vector<Span> known;
};

}
