#include "lives.hpp"

namespace lives {

void Lives::see_use(objects::Thing thing, u64 place, u64 number, u16 thread) {
    auto made = things[thing][place].uses.emplace(thread, forks::Ends{number, number});
    made.first->second.second = number;
}

bool Lives::see_write(const forks::Forks &forks, objects::Thing thing, u64 place, u64 size, const forks::Step &write) {
    auto found = things.find(thing);
    if (found == things.end()) return false;
    bool meets = false;
    auto &lives = found->second;
    for (auto life = lives.lower_bound(place); life != lives.end() && life->first < place + size; ++life) {
        for (auto &use : life->second.uses) {
            if (forks.order(write, use.first, use.second)) continue;
            life->second.has_reads = true;
            any = meets = true;
        }
    }
    return meets;
}

bool Lives::has_reads(objects::Thing thing, u64 place) const {
    if (!any) return false;
    auto found = things.find(thing);
    if (found == things.end()) return false;
    auto life = found->second.find(place);
    return life != found->second.end() && life->second.has_reads;
}

}
