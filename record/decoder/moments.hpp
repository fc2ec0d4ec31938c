// Moments: the parts of threads between two forks or joins. Forks and joins alone order all events of two moments, or
// none.
#pragma once
#include <cstddef>
#include <memory>
#include <vector>
#include "../runtime/format.h"

namespace moments {

// The number of a moment; the first one is 1.
using Moment = u32;
constexpr Moment NO_MOMENT = 0;
// Nothing is known of the order of later threads, so their accesses are written.
constexpr size_t MOST_THREADS = 4096;

// Whether a record ends the moments of two threads, and begins others.
inline bool is_border(const record &one) {
    return (one.kind == FORK || one.kind == JOIN) && one.thread < MOST_THREADS && one.at < MOST_THREADS;
}

// How many moments of each thread have ended, at a place of the recording.
using Ended = std::vector<u32>;

class Moments {
public:
    // Each record that happened, in their order.
    void see(const record &one);
    // How many moments have ended after the records that were seen.
    Ended ended() const;
    // A thread's moment when this number of its others have ended.
    Moment of(u16 thread, u32 ended) const {
        bool is_known = thread < threads.size() && ended < threads[thread].moments.size();
        return is_known ? threads[thread].moments[ended] : static_cast<Moment>(places.size() + thread);
    }
    // Whether all of a moment comes before all of another one, or both are of one thread.
    bool is_before(Moment moment, Moment other) const;

private:
    // How many moments of each thread come before a moment.
    using Known = std::vector<u32>;
    struct Thread {
        std::vector<Moment> moments;
        std::shared_ptr<const Known> known = std::make_shared<Known>();
    };
    // A moment: its thread, the how many-th it is there, and what comes before it.
    struct Place {
        u16 thread = 0;
        u32 number = 0;
        std::shared_ptr<const Known> known;
    };
    void go_on(u16 thread);
    void learn(u16 thread, const Known &known, u16 other, size_t count);
    std::vector<Thread> threads;
    // Of moments by their numbers. A thread without forks and joins has one moment, beyond these.
    std::vector<Place> places = std::vector<Place>(1);
};

// The moments that threads are in, as the records of a piece go by.
class Clock {
public:
    Clock(const Moments &order, const Ended &ended) : order(order), ended(ended) { now.reserve(ended.size()); }
    void see(const record &one) {
        if (is_border(one)) pass(one.thread), pass(static_cast<u16>(one.at));
    }
    Moment of(u16 thread) {
        if (thread < now.size() && now[thread] != NO_MOMENT) return now[thread];
        return found(thread);
    }

private:
    void pass(u16 thread);
    Moment found(u16 thread);
    const Moments &order;
    Ended ended;
    std::vector<Moment> now;
};

}
