#include "ordered.hpp"
#include <algorithm>

namespace ordered {

void Ordered::see(size_t part, const record &one, bool writes) {
    Key key{one.thread, one.pc, one.stack, writes, one.kind == FREED};
    if (accesses.empty() || key != last) {
        auto known = numbers.emplace(key, static_cast<u32>(accesses.size()));
        if (known.second) accesses.push_back(one), is_write.push_back(writes), others.push_back(false);
        last = key, last_number = known.first->second;
    }
    of[part] = sets.with(of[part], last_number);
    if (of[part] == leaving::TOO_MANY) others[last_number] = true;
}

void Ordered::write(FILE *to, u64 bytes, const std::function<std::string(const record &)> &location) const {
    auto write_access = [&](u32 number) {
        const record &one = accesses[number];
        fprintf(to, "T%u|%c|%s\n", one.thread, is_write[number] ? 'w' : 'r', location(one).c_str());
    };
    fprintf(to, "recording|ordered(%llu)|\n", static_cast<unsigned long long>(bytes));
    std::vector<leaving::Set> found(of);
    std::sort(found.begin(), found.end());
    found.erase(std::unique(found.begin(), found.end()), found.end());
    for (leaving::Set set : found) {
        if (!set || set == leaving::TOO_MANY) continue;
        fputc('\n', to);
        for (u32 number : sets.members(set)) write_access(number);
    }
    if (std::find(others.begin(), others.end(), true) == others.end()) return;
    fputc('\n', to);
    for (u32 number = 0; number < others.size(); number++)
        if (others[number]) write_access(number);
}

}
