// The pieces of a recording, which several workers go over side by side. Each begins with what is known there of the
// records before: the thread and the forms of records, what lies where, and how many moments of each thread have ended.
#pragma once
#include <exception>
#include <system_error>
#include <thread>
#include <vector>
#include "moments.hpp"
#include "objects.hpp"
#include "raw.hpp"

namespace pieces {

// A piece with fewer words takes longer to begin than to be gone over.
constexpr u64 LEAST_WORDS = 1 << 17;
constexpr size_t MOST_WORKERS = 16;

struct Piece {
    raw::Start start;
    // The word after its last one.
    u64 end;
    objects::Objects::Ground ground;
    moments::Ended ended;
};
using Pieces = std::vector<Piece>;

// Calls `work` with each number below `count`, side by side. The first exception by the order of the numbers is thrown
// again when all have ended.
template <class Work> void side_by_side(size_t count, Work work) {
    std::vector<std::exception_ptr> wrong(count);
    auto guarded = [&](size_t k) {
        try {
            work(k);
        } catch (...) { wrong[k] = std::current_exception(); }
    };
    std::vector<std::thread> others;
    for (size_t k = 1; k < count; k++) {
        try {
            others.emplace_back(guarded, k);
        } catch (const std::system_error &) { guarded(k); }
    }
    if (count) guarded(0);
    for (std::thread &one : others) one.join();
    for (std::exception_ptr &one : wrong)
        if (one) std::rethrow_exception(one);
}

}
