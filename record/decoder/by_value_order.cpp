// What comes before an event in each reordering by value. A row has how many events of each thread come before it. It
// begins with nothing, and a rule raises it: so it is right whenever the raising ends.
#include "by_value.hpp"
#include <algorithm>
#include <climits>

namespace by_value {

constexpr int MOST_ROUNDS = 60;

static u64 of_thread(int object, int thread) { return static_cast<u64>(object) << 32 | static_cast<u32>(thread); }

Order::Order(const Trace &trace) : trace(trace), threads(trace.threads), rows(trace.events.size() * trace.threads) {
    for (size_t e = 0; e < trace.events.size(); e++) {
        const Event &one = trace.events[e];
        if (one.kind == ACQUIRE) acquires[of_thread(one.object, one.thread)].push_back(trace.place[e]);
        if (one.kind != WRITE) continue;
        writes[of_thread(one.object, one.thread)].push_back(trace.place[e]);
        if (one.value != NONE) writes_of[of_thread(one.object, one.value)][one.thread].push_back(trace.place[e]);
    }
    bool changes = true;
    for (int round = 0; changes && round < MOST_ROUNDS; round++) {
        changes = false;
        for (int e = 0; e < static_cast<int>(trace.events.size()); e++) changes |= raise(e);
    }
}

void Order::join(Row &row, int event) {
    if (event == NONE) return;
    for (size_t t = 0; t < threads; t++) {
        int there = count(event, static_cast<int>(t));
        if (there > row[t]) row[t] = there, grew = true;
    }
    int thread = trace.events[event].thread, least = trace.place[event] + 1;
    if (row[thread] < least) row[thread] = least, grew = true;
}

bool Order::raise(int event) {
    const Event &one = trace.events[event];
    auto start = rows.begin() + static_cast<std::ptrdiff_t>(static_cast<size_t>(event) * threads);
    Row row(start, start + static_cast<std::ptrdiff_t>(threads));
    int &mine = row[one.thread];
    grew = mine <= trace.place[event];
    mine = std::max(mine, trace.place[event] + 1);
    join(row, trace.base[event]);
    if (one.kind == JOIN) {
        const std::vector<int> &joined = trace.of[one.object];
        join(row, joined.empty() ? trace.fork[one.object] : joined.back());
    }
    if (one.kind == READ) trace.is_strict[event] ? join(row, trace.writer[event]) : join_read(row, event);
    if (grew) join_sections(row, event);
    bool changes = !std::equal(row.begin(), row.end(), start);
    std::copy(row.begin(), row.end(), start);
    return changes;
}

// What comes before each write that a read may see also comes before the read.
void Order::join_read(Row &row, int read) {
    const Event &one = trace.events[read];
    any = false;
    shared.assign(threads, INT_MAX);
    auto own = writes.find(of_thread(one.object, one.thread));
    int own_write = NONE;
    if (own != writes.end()) {
        auto next = std::lower_bound(own->second.begin(), own->second.end(), trace.place[read]);
        if (next != own->second.begin()) own_write = trace.of[one.thread][*std::prev(next)];
    }
    if (own_write != NONE && trace.fits(read, own_write)) candidate(own_write, read);
    if (own_write == NONE && trace.fits(read, NONE) && may_see_first(row, read)) any = true, shared.assign(threads, 0);
    add_candidates(row, read, own_write);
    for (size_t t = 0; any && t < threads; t++)
        if (static_cast<int>(t) != one.thread && shared[t] != INT_MAX && shared[t] > row[t])
            row[t] = shared[t], grew = true;
}

// Whether no write of another thread has to come before a read.
bool Order::may_see_first(const Row &row, int read) const {
    for (size_t t = 0; t < threads; t++) {
        auto its = writes.find(of_thread(trace.events[read].object, static_cast<int>(t)));
        if (static_cast<int>(t) == trace.events[read].thread || its == writes.end()) continue;
        if (its->second.front() < row[t]) return false;
    }
    return true;
}

// Of each other thread the first write of the value that no other one has to overwrite before the read.
void Order::add_candidates(Row &row, int read, int own_write) {
    const Event &one = trace.events[read];
    auto found = writes_of.find(of_thread(one.object, one.value));
    if (found == writes_of.end()) return;
    for (auto &[thread, places] : found->second) {
        if (thread == one.thread) continue;
        const std::vector<int> &all = writes.at(of_thread(one.object, thread));
        auto after = std::lower_bound(all.begin(), all.end(), row[thread]);
        int from = after == all.begin() ? 0 : *std::prev(after);
        if (own_write != NONE) from = std::max(from, count(own_write, thread));
        auto first = std::lower_bound(places.begin(), places.end(), from);
        if (first != places.end()) candidate(trace.of[thread][*first], read);
    }
}

void Order::candidate(int write, int read) {
    int thread = trace.events[write].thread, reader = trace.events[read].thread;
    if (thread != reader && count(write, reader) > trace.place[read]) return;
    any = true;
    for (size_t t = 0; t < threads; t++) {
        int there = count(write, static_cast<int>(t));
        if (static_cast<int>(t) == thread) there = std::max(there, trace.place[write] + 1);
        shared[t] = std::min(shared[t], there);
    }
}

// The last acquire of a lock among the first events of a thread, or NONE.
int Order::last_acquire(int lock, int thread, int count) const {
    auto its = acquires.find(of_thread(lock, thread));
    if (its == acquires.end()) return NONE;
    auto next = std::lower_bound(its->second.begin(), its->second.end(), count);
    return next == its->second.begin() ? NONE : trace.of[thread][*std::prev(next)];
}

// Sections of a lock that another thread has begun before an event within the lock have ended before it.
void Order::join_sections(Row &row, int event) {
    const Event &one = trace.events[event];
    std::vector<int> locks = trace.sets[trace.held[event]];
    if (one.kind == ACQUIRE) locks.push_back(one.object);
    for (bool again = true; again;) {
        again = false;
        for (int lock : locks) {
            for (int t = 0; t < static_cast<int>(threads); t++) {
                int begun = t == one.thread ? NONE : last_acquire(lock, t, row[t]);
                int end = begun == NONE ? NONE : trace.end[begun];
                if (end == NONE || row[t] > trace.place[end]) continue;
                join(row, end);
                again = true;
            }
        }
    }
}

}
