// Pages of memory: those of parts that are written, and those of locks. Plain accesses of other pages are passed by
// unseen.
#pragma once
#include "../runtime/format.h"
#include <vector>

namespace pages {

class Set {
public:
    Set() : kept(COUNT / BITS_OF_WORD) {}
    static u32 number_of(u64 address) { return static_cast<u32>((address >> BITS) % COUNT); }
    void add(u32 number) { kept[number / BITS_OF_WORD] |= 1ull << number % BITS_OF_WORD; }
    void join(const Set &other) {
        for (size_t word = 0; word < kept.size(); word++) kept[word] |= other.kept[word];
    }
    // Whether an access may be of a page of this set.
    bool may_have(u64 address, u64 size) const {
        u64 page = address >> BITS, last = (address + (size ? size - 1 : 0)) >> BITS;
        if (last - page > MOST_PAGES) return true;
        for (; page <= last; page++)
            if (kept[page % COUNT / BITS_OF_WORD] >> page % BITS_OF_WORD & 1) return true;
        return false;
    }

private:
    // Pages that are a multiple of COUNT apart share a number. An access of more than MOST_PAGES pages is
    // always seen.
    static constexpr u64 BITS = 12, COUNT = 1 << 20, MOST_PAGES = 16, BITS_OF_WORD = 64;
    std::vector<u64> kept;
};

}
