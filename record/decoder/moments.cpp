#include "moments.hpp"
#include <algorithm>

namespace moments {

void Moments::go_on(u16 thread) {
    Thread &mine = threads[thread];
    places.push_back({thread, static_cast<u32>(mine.moments.size()), mine.known});
    mine.moments.push_back(static_cast<Moment>(places.size() - 1));
}

bool Moments::is_before(Moment moment, Moment other) const {
    static const Known none;
    size_t beyond = places.size();
    u16 thread = moment < beyond ? places[moment].thread : static_cast<u16>(moment - beyond);
    u32 number = moment < beyond ? places[moment].number : 0;
    u16 its = other < beyond ? places[other].thread : static_cast<u16>(other - beyond);
    const Known &known = other < beyond ? *places[other].known : none;
    return thread == its || (thread < known.size() && number < known[thread]);
}

// Adds what another thread knows, and `count` moments of that thread.
void Moments::learn(u16 thread, const Known &known, u16 other, size_t count) {
    Thread &mine = threads[thread];
    auto all = std::make_shared<Known>(*mine.known);
    all->resize(std::max({all->size(), known.size(), static_cast<size_t>(other) + 1}));
    for (size_t k = 0; k < known.size(); k++) (*all)[k] = std::max((*all)[k], known[k]);
    (*all)[other] = std::max((*all)[other], static_cast<u32>(count));
    mine.known = std::move(all);
}

void Moments::see(const record &one) {
    if (!is_border(one)) return;
    u16 mine = one.thread, other = static_cast<u16>(one.at);
    if (threads.size() <= std::max(mine, other)) threads.resize(std::max(mine, other) + 1u);
    for (u16 thread : {mine, other})
        if (threads[thread].moments.empty()) go_on(thread);
    u16 from = one.kind == FORK ? mine : other, to = one.kind == FORK ? other : mine;
    learn(to, *std::shared_ptr<const Known>(threads[from].known), from, threads[from].moments.size());
    go_on(mine);
    go_on(other);
}

Ended Moments::ended() const {
    Ended found;
    for (const Thread &one : threads)
        found.push_back(one.moments.empty() ? 0 : static_cast<u32>(one.moments.size() - 1));
    return found;
}

void Clock::pass(u16 thread) {
    if (ended.size() <= thread) ended.resize(thread + 1u);
    ended[thread]++;
    if (thread < now.size()) now[thread] = NO_MOMENT;
}

Moment Clock::found(u16 thread) {
    if (now.size() <= thread) now.resize(thread + 1u);
    return now[thread] = order.of(thread, thread < ended.size() ? ended[thread] : 0);
}

}
