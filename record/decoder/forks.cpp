#include "forks.hpp"

namespace forks {

void Forks::see(u64 number, const record &one) {
    if (one.kind == FORK) forked.emplace(one.at, Step{number, one.thread});
    if (one.kind == JOIN) joined.emplace(one.at, Step{number, one.thread});
}

// Whether all that the thread does comes after that event of the other thread, which made it later.
bool Forks::comes_after(u64 thread, u64 number, u64 other) const {
    while (thread != other) {
        auto fork = forked.find(thread);
        if (fork == forked.end() || fork->second.number <= number) return false;
        thread = fork->second.thread;
    }
    return true;
}

// Whether all that the thread does comes before that event of the other thread, which joined it before.
bool Forks::comes_before(u64 thread, u64 number, u64 other) const {
    while (thread != other) {
        auto join = joined.find(thread);
        if (join == joined.end() || join->second.number >= number) return false;
        thread = join->second.thread;
    }
    return true;
}

bool Forks::order(const Step &step, u16 other, const Ends &ends) const {
    if (step.number < ends.first) return comes_after(other, step.number, step.thread);
    return step.thread == other || (step.number > ends.second && comes_before(other, step.number, step.thread));
}

}
