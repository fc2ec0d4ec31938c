// The deadlock that a run ended in: which thread waits for which lock, and since when another one holds it.
#pragma once
#include <map>
#include <optional>
#include <string>
#include <vector>
#include "places.hpp"

namespace deadlocks {

// A lock that a thread holds: where it took it, and how often.
struct Hold {
    places::Key since;
    u64 times;
};

// Who holds a lock, by its address: the records that take locks and let them go are met in their order.
class Holders {
public:
    void see(const record &one);
    // Where a thread took the lock at an address, if it holds it.
    std::optional<places::Key> since(u64 at, u16 thread) const;

private:
    void let_go(const record &one);
    std::map<u64, std::map<u16, Hold>> holds;
};

// A thread of the deadlock: the place where it waits, the name of the lock, the thread that holds it, and the place where
// that one took it.
struct Wait {
    u16 thread, holder;
    std::string place, lock, since;
};

// Prints a line `deadlock THREAD|PLACE|LOCK|HOLDER|PLACE` for each thread.
void print(FILE *to, const std::vector<Wait> &waits);

}
