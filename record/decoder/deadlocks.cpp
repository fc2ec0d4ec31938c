#include "deadlocks.hpp"

namespace deadlocks {

// A lock that another thread lets go is nobody's.
void Holders::let_go(const record &one) {
    auto lock = holds.find(one.at);
    if (lock == holds.end()) return;
    auto mine = lock->second.find(one.thread);
    if (mine == lock->second.end()) holds.erase(lock);
    else if (!--mine->second.times) lock->second.erase(mine);
}

void Holders::see(const record &one) {
    if (one.of) return;
    if (one.kind == ACQUIRE || one.kind == WRITER || one.kind == READER_IN) {
        Hold first{{one.pc, one.stack}, 0};
        holds[one.at].try_emplace(one.thread, first).first->second.times++;
    } else if (one.kind == RELEASE || one.kind == READER_OUT) {
        let_go(one);
    }
}

std::optional<places::Key> Holders::since(u64 at, u16 thread) const {
    auto lock = holds.find(at);
    if (lock == holds.end()) return std::nullopt;
    auto hold = lock->second.find(thread);
    if (hold == lock->second.end()) return std::nullopt;
    return hold->second.since;
}

void print(FILE *to, const std::vector<Wait> &waits) {
    for (const Wait &one : waits)
        fprintf(to, "deadlock %d|%s|%s|%d|%s\n", one.thread, one.place.c_str(), one.lock.c_str(), one.holder,
                one.since.c_str());
}

}
