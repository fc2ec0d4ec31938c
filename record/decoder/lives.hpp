// The life of locks, semaphores and barriers. Each use of one reads its first byte, and who makes, destroys or frees it
// writes that byte. The reads are written only if forks and joins alone do not order the uses with each such write.
#pragma once
#include <atomic>
#include <map>
#include <unordered_map>
#include "forks.hpp"
#include "objects.hpp"

namespace lives {

class Lives {
public:
    // Each use, in their order.
    void see_use(objects::Thing thing, u64 place, u64 number, u16 thread);
    // Each write of a thing's bytes, after all uses are seen; whether a use may meet it. Several workers may see writes
    // at once.
    bool see_write(const forks::Forks &forks, objects::Thing thing, u64 place, u64 size, const forks::Step &write);
    // Whether uses of this lock are written as reads.
    bool has_reads(objects::Thing thing, u64 place) const;

private:
    struct Life {
        std::map<u16, forks::Ends> uses;
        std::atomic<bool> has_reads = false;
    };
    std::unordered_map<objects::Thing, std::map<u64, Life>> things;
    std::atomic<bool> any = false;
};

}
