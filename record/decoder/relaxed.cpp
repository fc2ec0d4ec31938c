#include "relaxed.hpp"
#include <algorithm>

namespace relaxed {

using releases::ACQUIRES;
using releases::CONSUME;
using releases::RELAXED;
using releases::RELEASES;

void Relaxed::see(const record &one) {
    bool is_atomic = one.kind >= ATOMIC_READ && one.kind <= ATOMIC_UPDATE;
    bool releases_alone = one.kind == ATOMIC_UPDATE && one.order == RELEASES;
    there |= is_atomic && (one.order == RELAXED || releases_alone);
}

void Relaxed::see_part(u64 number, const record &one, size_t part) {
    Part &seen = parts[part];
    if (one.kind < ATOMIC_READ || one.kind > ATOMIC_UPDATE) {
        auto &steps = one.kind == FREED ? seen.freed : seen.plain;
        if (steps.size() <= MOST_PLAIN) steps.push_back({number, one.thread});
        return;
    }
    auto made = seen.atomic.emplace(one.thread, forks::Ends{number, number});
    made.first->second.second = number;
}

void Relaxed::see_lock(u16 thread, const Held &lock, bool takes) {
    Locks &mine = held[thread];
    std::vector<Held> now = mine ? *mine : std::vector<Held>{};
    auto is_it = [&](const Held &one) { return one.thing == lock.thing && one.place == lock.place; };
    auto last = std::find_if(now.rbegin(), now.rend(), is_it);
    if (takes) now.push_back(lock);
    else if (last != now.rend()) now.erase(std::prev(last.base()));
    mine = now.empty() ? nullptr : std::make_shared<const std::vector<Held>>(std::move(now));
}

// A write and a read of it, or a read and the write after it, in two sections of a lock: another order of the sections
// gives the read another writer.
void Relaxed::order(const Locked &first, const Locked &second) {
    if (!first.locks || !second.locks) return;
    for (const Held &one : *first.locks) {
        for (const Held &other : *second.locks) {
            if (one.thing != other.thing || one.place != other.place || (one.shared && other.shared)) continue;
            if (ordered.size() <= second.number) ordered.resize(second.number + 1 + second.number / 2);
            ordered[first.number] = ordered[second.number] = true;
        }
    }
}

void Relaxed::see_atomic(u64 number, const record &one, size_t part) {
    Part &seen = parts[part];
    auto mine = held.find(one.thread);
    Locked now{number, mine == held.end() ? nullptr : mine->second};
    if (one.kind != ATOMIC_WRITE) {
        if (seen.any_write && seen.writer != one.thread) order(seen.write, now);
        seen.reads[one.thread] = now;
    }
    if (one.kind == ATOMIC_READ) return;
    for (auto &read : seen.reads) {
        if (read.first != one.thread) order(read.second, now);
    }
    seen.reads.clear();
    seen.any_write = true, seen.writer = one.thread, seen.write = now;
}

// What can meet the atomic accesses of a part: no plain access of a pure one.
void Relaxed::judge_part(const forks::Forks &forks, Part &seen) {
    auto meets = [&](const forks::Step &step) {
        auto is_ordered = [&](auto &thread) { return forks.order(step, thread.first, thread.second); };
        return !std::all_of(seen.atomic.begin(), seen.atomic.end(), is_ordered);
    };
    seen.pure = seen.plain.size() <= MOST_PLAIN && std::none_of(seen.plain.begin(), seen.plain.end(), meets);
    seen.meets_free = std::any_of(seen.freed.begin(), seen.freed.end(), meets);
}

void Relaxed::judge(const forks::Forks &forks) {
    for (auto &part : parts)
        if (!part.second.atomic.empty()) judge_part(forks, part.second);
}

Form Relaxed::form_of(u64 number, const record &one, const std::vector<size_t> &of, Stronger &stronger) const {
    bool is_relaxed = one.order == RELAXED || orders.sees_relaxed(number), writes_alone = orders.is_write_alone(number);
    bool is_ordered = number < ordered.size() && ordered[number], pure = true, meets_free = false;
    if ((is_relaxed && !is_ordered) || writes_alone) {
        for (size_t part : of) {
            const Part &seen = parts.at(part);
            pure = pure && seen.pure, meets_free = meets_free || seen.meets_free;
        }
        if (pure && writes_alone) return WRITES;
        if (pure) return meets_free ? READS : NOTHING;
    }
    bool one_way = one.kind == ATOMIC_UPDATE && one.order >= CONSUME && one.order <= RELEASES;
    if ((one.order == RELAXED && !is_ordered) || one_way) {
        stronger.count++;
        stronger.places.emplace(one.pc, one.stack);
    }
    return WHOLE;
}

}
