#include "by_value.hpp"

namespace by_value {

// Numbers that are mixed well, so that their sums differ if states do.
static u64 mixed(u64 kind, u64 first, u64 second) {
    u64 number =
        (first * 0x9e3779b97f4a7c15ull) ^ (second + 0x632be59bd9b4e019ull) * 0xff51afd7ed558ccdull ^ kind << 62;
    number ^= number >> 32;
    number *= 0xd6e8feb86659fd93ull;
    return number ^ number >> 29;
}

State::State(const Trace &trace)
    : trace(trace), position(trace.threads), last(trace.variables, NONE), holder(trace.locks, NONE), depth(trace.locks),
      keeps_writer(trace.variables) {
    for (size_t e = 0; e < trace.events.size(); e++)
        if (trace.is_strict[e]) keeps_writer[trace.events[e].object] = 1;
}

// What a variable holds: a value, or the write itself if a read asks for that.
u64 State::content_of(int variable, int write) const {
    int value = write == NONE ? trace.first_value[variable] : trace.events[write].value;
    bool is_write = keeps_writer[variable] || value == NONE;
    return mixed(is_write ? 1 : 2, static_cast<u64>(variable), static_cast<u64>(is_write ? write : value));
}

void State::add(int event) {
    const Event &one = trace.events[event];
    int &mine = position[one.thread];
    sum += mixed(3, static_cast<u64>(one.thread), static_cast<u64>(mine + 1));
    sum -= mixed(3, static_cast<u64>(one.thread), static_cast<u64>(mine));
    mine++;
    done.push_back(event);
    if (one.kind == WRITE) {
        sum += content_of(one.object, event) - content_of(one.object, last[one.object]);
        overwritten.push_back(last[one.object]);
        last[one.object] = event;
    } else if (one.kind == ACQUIRE) {
        holder[one.object] = one.thread, depth[one.object]++;
    } else if (one.kind == RELEASE) {
        depth[one.object]--;
    }
}

void State::back() {
    int event = done.back();
    const Event &one = trace.events[event];
    done.pop_back();
    int &mine = position[one.thread];
    sum += mixed(3, static_cast<u64>(one.thread), static_cast<u64>(mine - 1));
    sum -= mixed(3, static_cast<u64>(one.thread), static_cast<u64>(mine));
    mine--;
    if (one.kind == WRITE) {
        sum += content_of(one.object, overwritten.back()) - content_of(one.object, event);
        last[one.object] = overwritten.back();
        overwritten.pop_back();
    } else if (one.kind == ACQUIRE) {
        depth[one.object]--;
    } else if (one.kind == RELEASE) {
        holder[one.object] = one.thread, depth[one.object]++;
    }
}

bool State::has_begun(int thread) const {
    int fork = trace.fork[thread];
    return fork == NONE || position[trace.events[fork].thread] > trace.place[fork];
}

int State::next(int thread) const {
    const std::vector<int> &all = trace.of[thread];
    size_t at = static_cast<size_t>(position[thread]);
    return at < all.size() && has_begun(thread) ? all[at] : NONE;
}

bool State::may_come(int event) const {
    const Event &one = trace.events[event];
    switch (one.kind) {
    case READ: return trace.fits(event, last[one.object]);
    case ACQUIRE: return depth[one.object] <= 0 || holder[one.object] == one.thread;
    case JOIN: return has_begun(one.object) && position[one.object] == static_cast<int>(trace.of[one.object].size());
    default: return true;
    }
}

}
