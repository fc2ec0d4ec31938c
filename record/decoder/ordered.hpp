// The accesses that are left out of the trace, since forks and joins order them: for record/reported, which has to know
// of both places of a pair.
#pragma once
#include <cstdio>
#include <functional>
#include <map>
#include <string>
#include <tuple>
#include <vector>
#include "leaving.hpp"

namespace ordered {

class Ordered {
public:
    explicit Ordered(size_t parts) : of(parts) {}
    void see(size_t part, const record &one, bool writes);
    // Writes how many bytes the trace has, and then for each set of accesses of one variable lines `T1|r|LOCATION`, with
    // an empty line before them.
    void write(FILE *to, u64 bytes, const std::function<std::string(const record &)> &location) const;

private:
    // An access by its thread, its place, its stack, and whether it writes or frees.
    using Key = std::tuple<u16, u64, u32, bool, bool>;
    std::map<Key, u32> numbers;
    std::vector<record> accesses;
    std::vector<bool> is_write;
    // Of each part the set of its accesses; and the accesses of parts whose sets have no room.
    leaving::Sets sets;
    std::vector<leaving::Set> of;
    std::vector<bool> others;
    Key last{};
    u32 last_number = 0;
};

}
