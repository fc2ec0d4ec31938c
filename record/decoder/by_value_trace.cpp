#include "by_value.hpp"
#include <algorithm>
#include <cstring>
#include <fstream>
#include <map>
#include "raw.hpp"

namespace by_value {

// The kinds of events by their words in a trace.
static int kind_of(const std::string &word) {
    static const std::map<std::string, int> kinds = {{"r", READ},      {"w", WRITE},   {"acq", ACQUIRE},
                                                     {"rel", RELEASE}, {"fork", FORK}, {"join", JOIN}};
    auto found = kinds.find(word);
    return found == kinds.end() ? NONE : found->second;
}

Trace::Trace(const std::string &path, const std::string &values) {
    read_events(path);
    read_values(values);
    index();
    find_sections();
    find_strict();
}

void Trace::read_events(const std::string &path) {
    std::ifstream file(path, std::ios::binary);
    if (!file) throw raw::Wrong(path + ": can't be read");
    for (std::string line; std::getline(file, line);)
        if (line.compare(0, 10, "recording|")) add_line(line);
    threads = thread_names.size(), variables = variable_names.size(), locks = lock_names.size();
}

// A line is `T1|r(x)|LOCATION`.
void Trace::add_line(const std::string &line) {
    size_t first = line.find('|'), second = line.find('|', first + 1), open = line.find('(', first + 1);
    int kind = second < line.size() && open < second ? kind_of(line.substr(first + 1, open - first - 1)) : NONE;
    if (kind == NONE) throw raw::Wrong("this is no event of a trace: " + line.substr(0, 60));
    std::string name = line.substr(open + 1, second - open - 2);
    Numbers &names = kind <= WRITE ? variable_names : kind <= RELEASE ? lock_names : thread_names;
    int thread = thread_names.of(line.substr(0, first)), object = names.of(name);
    events.push_back({thread, kind, object, location_names.of(line.substr(second + 1)), NONE});
}

// The lines between the first and the last, which record/by_value.py has checked.
void Trace::read_values(const std::string &path) {
    std::ifstream file(path, std::ios::binary);
    if (!file) throw raw::Wrong(path + ": can't be read");
    for (std::string line; std::getline(file, line);) {
        size_t blank = line.find(' ');
        if (line.empty() || !strchr("0123456789", line[0]) || blank == std::string::npos) continue;
        u64 event = strtoull(line.c_str(), nullptr, 10);
        if (event < events.size()) events[event].value = value_names.of(line.substr(blank + 1));
    }
}

void Trace::index() {
    of.resize(threads), fork.assign(threads, NONE);
    std::vector<int> last(variables, NONE);
    writer.assign(events.size(), NONE), place.resize(events.size()), base.resize(events.size());
    for (int e = 0; e < static_cast<int>(events.size()); e++) {
        const Event &one = events[e];
        std::vector<int> &mine = of[one.thread];
        base[e] = mine.empty() ? fork[one.thread] : mine.back();
        place[e] = static_cast<int>(mine.size());
        mine.push_back(e);
        if (one.kind == READ) writer[e] = last[one.object];
        if (one.kind == WRITE) last[one.object] = e;
        if (one.kind == FORK && fork[one.object] == NONE) fork[one.object] = e;
    }
}

// The locks that each thread holds: a lock may be taken again by the thread that has it.
void Trace::find_sections() {
    std::map<std::vector<int>, int> numbers;
    std::vector<std::map<int, std::vector<int>>> open(threads);
    end.assign(events.size(), NONE), held.resize(events.size());
    auto set_of = [&](const std::map<int, std::vector<int>> &mine) {
        std::vector<int> names;
        for (auto &lock : mine) names.push_back(lock.first);
        auto found = numbers.emplace(names, static_cast<int>(sets.size()));
        if (found.second) sets.push_back(names);
        return found.first->second;
    };
    std::vector<int> now(threads, set_of({}));
    for (int e = 0; e < static_cast<int>(events.size()); e++) {
        const Event &one = events[e];
        held[e] = now[one.thread];
        if (one.kind != ACQUIRE && one.kind != RELEASE) continue;
        auto &mine = open[one.thread];
        if (one.kind == ACQUIRE) {
            mine[one.object].push_back(e);
        } else if (auto lock = mine.find(one.object); lock != mine.end()) {
            end[lock->second.back()] = e;
            lock->second.pop_back();
            if (lock->second.empty()) mine.erase(lock);
        }
        now[one.thread] = set_of(mine);
    }
}

// A read keeps its writer if its value is not known, or if its writer left another one: something wrote unseen.
void Trace::find_strict() {
    first_value.assign(variables, NONE), is_strict.assign(events.size(), 0);
    std::vector<char> differs(variables, 0);
    auto is_first = [this](size_t e) { return events[e].kind == READ && writer[e] == NONE; };
    for (size_t e = 0; e < events.size(); e++) {
        if (!is_first(e)) continue;
        int &first = first_value[events[e].object], value = events[e].value;
        if (value == NONE || (first != NONE && first != value)) differs[events[e].object] = 1;
        first = value;
    }
    for (size_t x = 0; x < variables; x++)
        if (differs[x]) first_value[x] = NONE;
    for (size_t e = 0; e < events.size(); e++) {
        if (events[e].kind != READ) continue;
        int left = writer[e] == NONE ? first_value[events[e].object] : events[writer[e]].value;
        is_strict[e] = events[e].value == NONE || left != events[e].value;
    }
}

bool Trace::share_lock(int a, int b) const {
    const std::vector<int> &one = sets[held[a]], &other = sets[held[b]];
    return std::any_of(one.begin(), one.end(),
                       [&](int lock) { return std::binary_search(other.begin(), other.end(), lock); });
}

}
