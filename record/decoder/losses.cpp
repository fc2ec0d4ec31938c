#include "losses.hpp"
#include <algorithm>

namespace losses {

void Losses::add(const std::string &cause, u64 count, u64 from, const std::vector<std::string> &names) {
    if (count) all.push_back({cause, count, from, names});
}

void Losses::add_uncounted(const std::string &cause, u64 from) { all.push_back({cause, 0, from, {}}); }

std::string Losses::end() const {
    if (all.empty()) return "recording|end(WHOLE)|\n";
    u64 count = 0, from = all[0].from;
    std::string causes;
    for (const Loss &loss : all) {
        count += loss.count;
        from = std::min(from, loss.from);
        causes += (causes.empty() ? "" : ", ") + loss.cause;
    }
    return "recording|end(LEFT OUT " + std::to_string(count) + " FROM " + std::to_string(from) + ": " + causes + ")|\n";
}

void Losses::print(FILE *to) const {
    for (const Loss &loss : all) {
        fprintf(to, "loss %s %llu\n", loss.cause.c_str(), static_cast<unsigned long long>(loss.count));
        for (const std::string &name : loss.names) fprintf(to, "lost %s %s\n", loss.cause.c_str(), name.c_str());
    }
}

}
