#include "releases.hpp"
#include <algorithm>

namespace releases {

static bool is_acquire(int order) { return order != RELAXED && order != RELEASES; }
static bool is_release(int order) { return order >= RELEASES; }

static void add(Sources &to, const Sources &from) {
    for (const forks::Step &source : from) {
        auto same = std::find_if(to.begin(), to.end(), [&](auto &one) { return one.thread == source.thread; });
        if (same == to.end()) to.push_back(source);
        else same->number = std::max(same->number, source.number);
    }
}

void Releases::acquire(u64 number, const Sources &sources) {
    if (sources.empty()) return;
    add(acquires[number], sources);
    for (const forks::Step &source : sources) numbers.emplace(source.number, numbers.size() + 1);
}

const Sources &Releases::acquired(u64 number) const {
    static const Sources none;
    auto found = acquires.find(number);
    return found == acquires.end() ? none : found->second;
}

u64 Releases::release(u64 number) const {
    auto found = numbers.find(number);
    return found == numbers.end() ? 0 : found->second;
}

void Releases::see_fence(u64 number, const record &one) {
    if (is_acquire(one.order)) {
        acquire(number, pending[one.thread]);
        pending[one.thread].clear();
    }
    if (is_release(one.order)) release_fences[one.thread] = number;
}

// An acquire of the last event's value alone has its order by the variable itself.
void Releases::see_read(u64 number, const record &one, const Value &value) {
    if (!is_acquire(one.order)) {
        Sources &mine = pending[one.thread];
        add(mine, value.sources);
        return;
    }
    bool by_itself = value.sources.size() == 1 && value.sources[0].number == value.last_event;
    if (!by_itself) acquire(number, value.sources);
    bool is_relaxed = value.relaxed_store && value.sources.empty() && value.writer != one.thread;
    if (is_relaxed && value.any_event && one.kind == ATOMIC_READ) without_order.insert(number);
}

void Releases::see_write(u64 number, const record &one, Value &value) {
    Sources own;
    auto fence = release_fences.find(one.thread);
    if (is_release(one.order)) own = {{number, one.thread}};
    else if (fence != release_fences.end()) own = {{fence->second, one.thread}};
    bool changes = one.kind == ATOMIC_UPDATE, takes_all = changes && is_acquire(one.order) && is_release(one.order);
    if (changes && one.order == RELEASES) {
        takes_all = value.sources.size() >= MOST_SOURCES;
        if (takes_all) acquire(number, value.sources);
        else writes_alone.insert(number);
    }
    if (changes && !takes_all) add(value.sources, own);
    else value.sources = own;
    if (!changes) value.relaxed_store = one.order == RELAXED;
    if (one.order != RELAXED) value.last_event = number, value.any_event = true;
    value.writer = one.thread;
}

void Releases::see(u64 number, const record &one, size_t variable) {
    Value &value = values[variable];
    if (one.kind != ATOMIC_WRITE) see_read(number, one, value);
    if (one.kind != ATOMIC_READ) see_write(number, one, value);
}

}
