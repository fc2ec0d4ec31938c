#include "parts.hpp"

namespace parts {

void Cuts::mark(u64 end) {
    u64 word = end / BITS;
    if (word >= marks.size()) marks.resize(word + 1 + word / 8);
    marks[word] |= 1ull << end % BITS;
}

// An end that comes again and again is kept once: what is new is sorted into the rest when it has become as many.
void Cuts::add_far(u64 end) {
    if (settled && std::binary_search(ends.begin(), ends.begin() + static_cast<ptrdiff_t>(settled), end)) return;
    ends.push_back(end);
    if (ends.size() < 2 * settled + 64) return;
    std::sort(ends.begin(), ends.end());
    ends.erase(std::unique(ends.begin(), ends.end()), ends.end());
    settled = ends.size();
}

void Cuts::join(const Cuts &later) {
    if (later.marks.size() > marks.size()) marks.resize(later.marks.size());
    for (size_t word = 0; word < later.marks.size(); word++) marks[word] |= later.marks[word];
    for (u64 end : later.ends) add_far(end);
}

void Cuts::settle() {
    for (u64 word = 0; word < marks.size(); word++)
        for (u64 rest = marks[word]; rest; rest &= rest - 1)
            ends.push_back(word * BITS + static_cast<u64>(__builtin_ctzll(rest)));
    marks = {};
    std::sort(ends.begin(), ends.end());
    ends.erase(std::unique(ends.begin(), ends.end()), ends.end());
    ends.shrink_to_fit();
    find_step();
}

void Cuts::find_step() {
    if (ends.size() < 2) return;
    u64 each = ends[1] - ends[0];
    for (size_t k = 2; k < ends.size(); k++)
        if (ends[k] - ends[k - 1] != each) return;
    step = each;
    if ((step & (step - 1)) == 0) shift = static_cast<u64>(__builtin_ctzll(step));
}

size_t Cuts::search(u64 place) const {
    return static_cast<size_t>(std::lower_bound(ends.begin(), ends.end(), place) - ends.begin());
}

}
