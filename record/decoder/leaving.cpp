#include "leaving.hpp"
#include <algorithm>

namespace leaving {

Sets::Sets() : all(1), found(CACHE), judged(CACHE) {}

Set Sets::make(Set set, Moment moment) {
    const std::vector<Moment> &before = all[set];
    if (std::binary_search(before.begin(), before.end(), moment)) return set;
    if (before.size() >= MOST_MOMENTS || used + before.size() >= MOST_ROOM) return TOO_MANY;
    auto known = made.emplace(static_cast<u64>(set) << 32 | moment, static_cast<Set>(all.size()));
    if (!known.second) return known.first->second;
    std::vector<Moment> more = before;
    more.insert(std::lower_bound(more.begin(), more.end(), moment), moment);
    used += more.size();
    all.push_back(std::move(more));
    return known.first->second;
}

Set Sets::with(Set set, Moment moment) {
    if (set == TOO_MANY) return TOO_MANY;
    Found &last = found[place_of(set, moment)];
    if (last.set != set || last.moment != moment) {
        last.with = make(set, moment);
        last.set = set, last.moment = moment;
    }
    return last.with;
}

bool Sets::judge(Set set, const Moments &order, Moment moment, bool before) {
    if (set == TOO_MANY) return false;
    Judged &last = judged[place_of(set, moment)];
    if (last.set != set || last.moment != moment || last.before != before) {
        auto is_so = [&](Moment one) { return before ? order.is_before(one, moment) : order.is_before(moment, one); };
        last.is_so = std::all_of(all[set].begin(), all[set].end(), is_so);
        last.set = set, last.moment = moment, last.before = before;
    }
    return last.is_so;
}

// A read of a moment that has read since the last write was judged then. A write that comes after the last write and
// all reads since comes after all earlier ones too.
void Leaving::see_access(size_t part, Moment now, bool writes) {
    Part &seen = parts[part];
    if (seen.stays) return;
    if (!writes) {
        Set more = sets.with(seen.reads, now);
        if (more == seen.reads && more != TOO_MANY) return;
        seen.reads = more;
    }
    seen.stays =
        (seen.write && !order.is_before(seen.write, now)) || (writes && !sets.are_before(seen.reads, order, now));
    if (!writes) return;
    if (!seen.first_write) seen.first_write = now, seen.first_reads = seen.reads;
    seen.write = now, seen.reads = 0;
}

// Whether the reads since the last write and those of one set more are more than a set may have.
bool Joined::are_too_many(Set more, size_t piece) const {
    if (more == TOO_MANY) return true;
    std::set<Moment> all(pieces[piece].sets.members(more).begin(), pieces[piece].sets.members(more).end());
    for (auto &one : reads) {
        if (one.second == TOO_MANY) return true;
        const std::vector<Moment> &its = pieces[one.first].sets.members(one.second);
        all.insert(its.begin(), its.end());
    }
    return all.size() > MOST_MOMENTS;
}

// What the piece does before its first write, and that write, come after what was done before the piece.
bool Joined::is_in_order(size_t piece, const Part &part) {
    Set head = part.first_write ? part.first_reads : part.reads;
    is_unsure |= head == TOO_MANY;
    if (write && !pieces[piece].sets.are_after(head, order, write)) return false;
    if (!part.first_write) return true;
    if (write && !order.is_before(write, part.first_write)) return false;
    auto is_before = [&](auto &one) { return pieces[one.first].sets.are_before(one.second, order, part.first_write); };
    return std::all_of(reads.begin(), reads.end(), is_before) && !are_too_many(head, piece);
}

void Joined::see_reads(Met &its) {
    its.last = reads;
    is_unsure |= its.all.size() >= MOST_READS;
    if (!is_unsure) its.all.insert(reads);
}

bool Joined::stays(size_t part) {
    write = moments::NO_MOMENT;
    reads.clear();
    for (size_t k = 0; k < pieces.size(); k++) {
        const Part &one = pieces[k].of(part);
        if (!one.any) continue;
        if (one.stays) return true;
        if (met[k].last != reads) see_reads(met[k]);
        if ((write || !reads.empty()) && !is_in_order(k, one)) return true;
        if (one.first_write) write = one.write, reads.clear();
        if (one.reads) reads.emplace_back(k, one.reads);
    }
    return false;
}

// At once, each set of a piece would be made again for each of the reads that the piece went on with.
bool Joined::are_sure() const {
    if (pieces.size() == 1) return true;
    size_t room = 0;
    for (size_t k = 0; k < pieces.size(); k++)
        room += (met[k].all.size() + 1) * (pieces[k].sets.room() + pieces[k].sets.count() * MOST_MOMENTS);
    return !is_unsure && room < MOST_ROOM;
}

}
