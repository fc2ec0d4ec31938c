// What of the recording is written: which things two threads come to, and in which parts. Workers go over its pieces
// side by side; what each met is put together in the order of the pieces.
#include "trace.hpp"
#include <algorithm>
#include <sched.h>

namespace trace {

// Who comes to each thing in a piece, and who writes it.
class Trace::Comers {
public:
    explicit Comers(Trace &trace) : trace(trace) {}
    bool wants(const record &) { return true; }
    // A use of a lock is an access if a write of the lock's bytes may meet it.
    void see(u64 number, const record &one, const Resolved &of) {
        if (!of.there() || !is_access(one)) return;
        parts::Seen &its = seen[of.thing];
        its.see(one.thread, is_write(one));
        if (!is_write(one)) return;
        if (one.kind == WRITE && !trace.options.raw_names) trace.things.see_write(of.thing, one, writes);
        if (!trace.has_uses || (is_plain(one) && !trace.used_pages.may_have(one.at, one.size))) return;
        if (trace.lives.see_write(trace.forks, of.thing, of.place, of.size, {number, one.thread}))
            its.several = its.written = true;
    }
    parts::PerThing<parts::Seen> seen;
    objects::Objects::Writes writes;

private:
    Trace &trace;
};

// Where the shared things are cut in a piece.
class Trace::Cutter {
public:
    explicit Cutter(const Trace &trace) : trace(trace), has_frames(trace.things.has_activations()) {}
    bool wants(const record &one) {
        if (!has_frames || one.kind == FRAME) return true;
        if (one.thread >= last.size()) last.resize(one.thread + 1u);
        last[one.thread] = {one.pc, one.stack};
        return true;
    }
    void see(u64, const record &one, const Resolved &whole) {
        Resolved of = trace.access_of(one, whole);
        if (!of.there() || !trace.seen.of(of.thing).shared()) return;
        u32 page = pages::Set::number_of(one.at);
        if (page != last_page) pages.add(page), last_page = page;
        cut(of);
    }
    // The things, in the order in which they came, and where each is cut.
    std::vector<objects::Thing> things;
    std::vector<parts::Cuts> cuts;
    parts::Wide wide;
    // The pages of the accesses, and where each thread was last.
    pages::Set pages;
    std::vector<places::Key> last;

private:
    void cut(const Resolved &of);
    const Trace &trace;
    parts::PerThing<u32> number_of;
    parts::Spans spans;
    u32 last_page = ~0u;
    bool has_frames;
};

void Trace::Cutter::cut(const Resolved &of) {
    if (of.size > parts::MOST_PARTS) wide.see({of.thing, of.place, of.size});
    if (parts::Cuts::is_far(of.place + of.size)) {
        parts::Span &known = spans.place_of(of.thing, of.place);
        if (parts::Spans::is_of(known, of.thing, of.place, of.size)) return;
        known = {of.thing, of.place, of.size};
    }
    u32 &number = number_of[of.thing];
    if (!number) {
        cuts.emplace_back();
        things.push_back(of.thing);
        number = static_cast<u32>(cuts.size());
    }
    cuts[number - 1].add(of.place);
    cuts[number - 1].add(of.place + of.size);
}

// As many as there are processors for this process, but not more than there are large pieces.
size_t Trace::workers() const {
    if (options.workers) return std::min(options.workers, pieces::MOST_WORKERS);
    cpu_set_t ours;
    size_t found = sched_getaffinity(0, sizeof ours, &ours) ? 1 : static_cast<size_t>(CPU_COUNT(&ours));
    return std::max<size_t>(1, std::min({found, pieces::MOST_WORKERS, file.words() / pieces::LEAST_WORDS}));
}

// All that is no plain access goes by first. So it is known where each piece begins, and what lies there.
void Trace::find_pieces() {
    raw::Records records(file);
    for (size_t k = 0, count = workers(); k < count; k++) {
        pieces.push_back({records.start(), file.words(), things.ground(), order.ended()});
        if (k) pieces[k - 1].end = pieces[k].start.word;
        records.stop_at(k + 1 < count ? file.words() / count * (k + 1) : file.words());
        while (records.next()) {
            const record &one = records.one();
            has_threads |= one.thread || one.kind == FORK;
            if (is_plain(one) && one.order != MADE) continue;
            if (!is_plain(one)) see_user(records.number(), one);
            see_border(records.number(), one);
        }
    }
    drop_single_users();
}

void Trace::see_user(u64 number, const record &one) {
    if (one.of) users[key_of(one)].see(one.thread, true);
    forks.see(number, one);
    order.see(one);
    relaxed.see(one);
    if (!options.all) polls.see(one);
}

// What begins, and what is done to locks and their like.
void Trace::see_border(u64 number, const record &one) {
    bool is_made = one.kind == WRITE && one.order == MADE;
    if (is_beginning(one)) resolve(things, one);
    if (!is_made && !is_synchronization(one.kind)) return;
    objects::Where of = one.of ? objects::Where{things.named(one.of, one.at), 0} : things.at(one.at);
    lock_of({of.thing, of.place}).see(one);
    if (one.of) user_locks[key_of(one)] = of.thing;
    if (!is_use(one)) return;
    has_uses = true;
    used_pages.add(pages::Set::number_of(one.at));
    lives.see_use(of.thing, of.place, number, one.thread);
}

// Of what is no memory, and one thread alone comes to, nothing is written.
void Trace::drop_single_users() {
    for (auto &one : user_locks)
        if (!users[one.first].several) locks.erase({one.second, 0});
    user_locks = {};
    last_lock = nullptr;
}

void Trace::find_shared() {
    std::vector<Comers> all(pieces.size(), Comers(*this));
    each_piece(pieces, all);
    for (Comers &met : all) {
        seen.join(met.seen);
        things.keep_writes(met.writes);
    }
}

// A thing that is shared is cut at both ends of each access to it.
void Trace::find_cuts() {
    std::vector<Cutter> all(pieces.size(), Cutter(*this));
    each_piece(pieces, all);
    cuts.resize(1);
    last_places.resize(1);
    for (Cutter &met : all) {
        for (size_t k = 0; k < met.things.size(); k++) {
            u32 &number = cuts_of[met.things[k]];
            if (!number) number = static_cast<u32>(cuts.size()), cuts.push_back(std::move(met.cuts[k]));
            else cuts[number].join(met.cuts[k]);
        }
        wide.join(met.wide);
        shared_pages.join(met.pages);
        keep_last_places(met.last);
    }
    settle_cuts();
}

// Where each thread was last, before the next piece.
void Trace::keep_last_places(const std::vector<places::Key> &last) {
    std::vector<places::Key> all = last_places.back();
    if (all.size() < last.size()) all.resize(last.size());
    for (size_t k = 0; k < last.size(); k++)
        if (last[k].pc || last[k].call) all[k] = last[k];
    last_places.push_back(std::move(all));
}

void Trace::settle_cuts() {
    size_t first = 0;
    for (parts::Cuts &one : cuts) {
        one.settle();
        one.first = first;
        first += one.size();
    }
    kept.resize(first);
}

// How many parts accesses have beyond those that each gives, if all wide accesses are known.
void Trace::count_beyond() {
    for (auto &access : wide.all()) {
        const parts::Wide::Access &one = access.first;
        auto [from, to] = cuts[cuts_of[one.thing]].between(one.place, one.place + one.size);
        if (to - from > parts::MOST_PARTS) parts::add_beyond(beyond, to - from, access.second);
    }
}

// An access gives as many parts as there is room for: whether these are more than it gave so far.
bool Trace::gives_more_parts() {
    size_t k = 0;
    while (k < beyond.size() && beyond[k] > parts::ROOM_BEYOND) k++;
    if (k == beyond.size() || !beyond[k]) return false;
    most_parts = parts::MORE_PARTS[k];
    return true;
}

// What a worker meets of parts in its piece.
class Trace::Parted {
public:
    Parted(const Trace &trace, const pieces::Piece &piece, const std::vector<places::Key> &last)
        : leaving(trace.order, trace.kept.size()), pages(trace.kept.size()), trace(trace),
          clock(trace.order, piece.ended), last(last), has_frames(trace.things.has_activations()) {}
    // Of a page without a shared thing nothing is cut.
    bool wants(const record &one) {
        if (has_frames && one.kind != FRAME) last_place(one.thread) = {one.pc, one.stack};
        return !is_plain(one) || trace.shared_pages.may_have(one.at, one.size);
    }
    void see(u64, const record &one, const Resolved &whole) {
        if (!is_plain(one)) see_other(one, whole);
        Resolved of = trace.access_of(one, whole);
        if (!of.there()) return;
        if (u32 number = trace.cuts_of.of(of.thing)) see_parts_of(one, of, trace.cuts[number]);
    }
    leaving::Leaving leaving;
    std::vector<u32> pages;
    objects::Objects::Uses uses;
    parts::Beyond beyond = {};
    u64 cut_accesses = 0;

private:
    void see_other(const record &one, const Resolved &whole);
    void see_parts_of(const record &one, const Resolved &of, const parts::Cuts &ends);
    void see_use(const record &one, const objects::Activation &frame, objects::Thing thing, u64 place);
    places::Key &last_place(u16 thread) {
        if (thread >= last.size()) last.resize(thread + 1u);
        return last[thread];
    }
    const Trace &trace;
    moments::Clock clock;
    parts::Spans spans;
    std::vector<places::Key> last;
    bool has_frames;
};

void Trace::Parted::see_other(const record &one, const Resolved &whole) {
    if (has_frames && whole.there() && is_synchronization(one.kind) && !one.of)
        if (auto frame = trace.things.activation_of(whole.thing)) see_use(one, *frame, whole.thing, whole.place);
    clock.see(one);
}

void Trace::Parted::see_parts_of(const record &one, const Resolved &of, const parts::Cuts &ends) {
    parts::Span span = trace.span_in(spans, of, ends);
    bool writes = is_access(one) && is_write(one), atomic = is_atomic(one.kind);
    moments::Moment now = clock.of(one.thread);
    if (span.end < span.to) {
        cut_accesses++;
        if (!trace.wide.are_known()) parts::add_beyond(beyond, span.to - span.from, 1);
    }
    for (size_t part = ends.first + span.from; part < ends.first + span.end; part++) {
        if (!atomic && leaving.is_as_before(part, now, writes)) continue;
        if (leaving.see_thread(part, one.thread, writes))
            pages[part] = pages::Set::number_of(one.at + ends.at(part - ends.first) - of.place);
        if (atomic) leaving.keep(part);
        else leaving.see_access(part, now, writes);
    }
    if (!has_frames || span.from == span.end || is_end(one)) return;
    auto frame = trace.things.activation_of(of.thing);
    for (size_t part = span.from; frame && part < span.end; part++) see_use(one, *frame, of.thing, ends.at(part));
}

// A place in a frame is used by its function, which is at the record, at a call that led to it, or where it was last.
void Trace::Parted::see_use(const record &one, const objects::Activation &frame, objects::Thing thing, u64 place) {
    places::Key &before = last_place(frame.thread);
    u64 pc = one.thread == frame.thread ? one.pc : before.pc;
    u32 node = one.thread == frame.thread ? one.stack : before.call;
    while (node && trace.file.call(node).body != frame.body) {
        pc = trace.file.call(node).site;
        node = std::min(trace.file.call(node).parent, node - 1);
    }
    if (node) uses[{thing, place}].add(pc);
}

// Puts together what was met in the pieces. False if nothing is known, since sets had no room.
bool Trace::join_parts(std::vector<Parted> &all) {
    std::vector<leaving::Leaving> pieces_left;
    pieces_left.reserve(all.size());
    for (Parted &one : all) pieces_left.push_back(std::move(one.leaving));
    leaving::Joined joined(order, pieces_left);
    for (size_t part = 0; part < kept.size(); part++) {
        kept[part] = {};
        for (size_t k = 0; k < all.size(); k++) {
            const leaving::Part &one = pieces_left[k].of(part);
            if (!one.any) continue;
            if (k && !kept[part].any) all[0].pages[part] = all[k].pages[part];
            kept[part].see(one.first, one.written);
            kept[part].several |= one.several;
        }
        kept[part].stays = joined.stays(part);
    }
    if (!joined.are_sure()) return false;
    for (Parted &one : all) {
        things.keep_uses(one.uses);
        counts.cut_accesses += one.cut_accesses;
        for (size_t k = 0; k < beyond.size(); k++) beyond[k] += one.beyond[k];
    }
    counts.cut_short = counts.cut_accesses ? most_parts : 0;
    page_of = std::move(all[0].pages);
    left = std::move(pieces_left);
    return true;
}

bool Trace::see_parts_in(const pieces::Pieces &some) {
    std::vector<Parted> all;
    all.reserve(some.size());
    for (size_t k = 0; k < some.size(); k++) all.emplace_back(*this, some[k], last_places[k]);
    each_piece(some, all);
    return join_parts(all);
}

void Trace::see_parts() {
    bool have_room = kept.size() * pieces.size() <= parts::MOST_BESIDE;
    if (have_room && see_parts_in(pieces)) return;
    pieces::Pieces whole = {pieces[0]};
    whole[0].end = file.words();
    see_parts_in(whole);
}

// Kept are the parts that two threads access, at least one by a write.
void Trace::find_kept() {
    count_beyond();
    if (wide.are_known()) gives_more_parts();
    see_parts();
    if (wide.are_known() || !gives_more_parts()) return;
    counts.cut_short = counts.cut_accesses = 0;
    see_parts();
}

// Parts that can't race are left out whole.
void Trace::leave_out() {
    for (size_t part = 0; part < kept.size(); part++) {
        if (!kept[part].shared() || kept[part].stays) continue;
        kept[part].ordered = true;
        counts.ordered_parts++;
        for (const leaving::Leaving &one : left) counts.ordered += one.of(part).accesses;
    }
}

}
