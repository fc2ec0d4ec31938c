#include "trace.hpp"
#include <algorithm>

namespace trace {

bool is_atomic(int kind) { return kind == ATOMIC_READ || kind == ATOMIC_WRITE || kind == ATOMIC_UPDATE; }

bool is_access(const record &one) {
    return one.kind == READ || one.kind == WRITE || one.kind == FREED || is_atomic(one.kind);
}

bool is_write(const record &one) { return one.kind != READ && one.kind != ATOMIC_READ; }

bool is_end(const record &one) { return one.kind == FREED && one.order == OF_FRAME; }

bool is_beginning(const record &one) {
    return one.kind == ALLOCATED || one.kind == STACK || one.kind == FRAME || one.kind == RESIZED;
}

bool is_synchronization(int kind) {
    return kind == ACQUIRE || kind == RELEASE || kind == PASS || kind == WRITER || kind == TRIED || kind == READER_IN ||
        kind == READER_OUT || kind == ARRIVED || kind == WENT_ON;
}

bool is_use(const record &one) {
    if (one.of) return false;
    if (one.kind == PASS) return one.order == WAITED || one.order == POSTED;
    if (one.kind == ARRIVED) return one.answer > 0;
    return is_synchronization(one.kind) && one.kind != WENT_ON;
}

Trace::Trace(const raw::File &file, const Options &options)
    : file(file), options(options), modules(file), things(modules), names(things, options.raw_names) {
    find_pieces();
    find_shared();
    find_cuts();
    find_kept();
    if (!options.raw_names) number_things();
    if (!options.only.empty()) choose();
    if (!options.all) leave_out();
    bool are_named = !options.ordered.empty();
    for (size_t part = 0; part < kept.size(); part++)
        if (kept[part].shared() || (kept[part].ordered && are_named)) written_pages.add(page_of[part]);
    page_of = {};
    if (relaxed.wants_parts()) find_relaxed();
    relaxed.judge(forks);
    part_names = std::vector<std::atomic<const std::string *>>(kept.size());
    for (auto &lock : locks) {
        counts.no_sections += lock.second.uneven && !lock.second.passes;
        counts.by_library += lock.second.by_library;
    }
}

Resolved Trace::resolve(objects::Objects &its, const record &one) const {
    switch (one.kind) {
    case ALLOCATED: its.begin_block(one); return {};
    case STACK:
        its.begin_stack(one);
        if (!options.raw_names) its.begin_own_variables(one);
        return {};
    case FRAME:
        if (!options.raw_names) its.begin_frame(one);
        return {};
    case RESIZED: its.resize(one.at, one.size); return {};
    default: break;
    }
    if (one.kind == FREED) return options.frees ? freed_by(its, one) : Resolved{};
    if (one.of) {
        auto found = users.find(key_of(one));
        if (found == users.end() || !found->second.several) return {};
        return {its.named(one.of, one.at), 0, one.size};
    }
    if (!is_access(one) && !is_synchronization(one.kind) && one.kind != REQUEST) return {};
    objects::Where where = its.at(one.at);
    return {where.thing, where.place, one.size};
}

// A block, or what an activation had of a frame.
Resolved Trace::freed_by(objects::Objects &its, const record &one) const {
    if (!is_end(one)) {
        objects::Where block = its.living_at(one.at);
        return {block.thing, 0, block.place};
    }
    objects::Where part = its.at(one.at);
    const objects::Activation *frame = its.activation_of(part.thing);
    bool is_whole = options.raw_names || (frame && frame->frame.end == one.at + one.size);
    return is_whole ? Resolved{part.thing, part.place, one.size} : Resolved{};
}

Resolved Trace::access_of_use(const record &one, const Resolved &of) const {
    bool reads = is_use(one) && lives.has_reads(of.thing, of.place);
    return reads ? Resolved{of.thing, of.place, 1} : Resolved{};
}

Trace::Found Trace::found_of(u64 number, const record &one, const Resolved &of, parts::Spans &known) const {
    Found found{number, one, of, 0, 0, 0};
    if (of.there() && is_access(one)) found.cuts = cuts_of.of(of.thing);
    if (!found.cuts) return found;
    const parts::Cuts &ends = cuts[found.cuts];
    parts::Span span = span_in(known, of, ends);
    found.from = ends.first + span.from, found.end = ends.first + span.end;
    return found;
}

const parts::Span &Trace::searched_span(parts::Spans &spans, const Resolved &of, const parts::Cuts &ends) const {
    parts::Span &known = spans.place_of(of.thing, of.place);
    if (!parts::Spans::is_of(known, of.thing, of.place, of.size)) {
        auto [from, to] = ends.between(of.place, of.place + of.size);
        known = {of.thing, of.place, of.size, from, to, std::min(to, from + most_parts)};
    }
    return known;
}

// Things with a part that is written or with a lock have numbers in the order in which they began.
void Trace::number_things() {
    std::vector<objects::Thing> printed;
    for (objects::Thing thing = 0; thing < things.blocks(); thing++) {
        const parts::Cuts &ends = cuts[cuts_of[thing]];
        auto first = kept.begin() + static_cast<ptrdiff_t>(ends.first);
        if (std::any_of(first, first + static_cast<ptrdiff_t>(ends.size()), [](auto &part) { return part.shared(); }))
            printed.push_back(thing);
    }
    for (auto &lock : locks) printed.push_back(lock.first.thing);
    std::sort(printed.begin(), printed.end());
    printed.erase(std::unique(printed.begin(), printed.end()), printed.end());
    things.number(printed);
}

void Trace::find_relaxed() {
    each([this](size_t number, const record &one, const Resolved &of) {
        if (one.kind == FENCE) relaxed.orders.see_fence(number, one);
        if (of.there() && is_synchronization(one.kind)) see_lock(one, of);
        if (!of.there() || !is_access(one) || !cuts_of[of.thing]) return;
        const parts::Cuts &ends = cuts[cuts_of[of.thing]];
        parts::Span span = span_of(of);
        for (size_t part = span.from; part < span.end; part++) {
            relaxed.see_part(number, one, ends.first + part);
            if (is_atomic(one.kind)) relaxed.see_atomic(number, one, ends.first + part);
        }
        if (is_atomic(one.kind)) relaxed.orders.see(number, one, ends.first + span.from);
    });
}

// A lock whose sections are written as such is taken or let go.
void Trace::see_lock(const record &one, const Resolved &of) {
    bool is_reader = one.kind == READER_IN || one.kind == READER_OUT;
    bool takes = is_taken(one) || one.kind == READER_IN, lets_go = is_let_go(one) || one.kind == READER_OUT;
    const LockSeen &lock = lock_of({of.thing, of.place});
    if ((takes || lets_go) && !lock.is_chain() && !lock.is_counted())
        relaxed.see_lock(one.thread, {of.thing, of.place, is_reader}, takes);
}

bool Trace::is_chosen(const record &one) {
    auto known = chosen_places.find({one.pc, one.stack});
    if (known != chosen_places.end()) return known->second;
    return chosen_places[{one.pc, one.stack}] = modules.is_in(one.pc, one.stack, options.only);
}

// Of the parts that are kept those that the files of `only` access; the others are left out whole, and counted.
void Trace::choose() {
    each([this](size_t, const record &one, const Resolved &whole) {
        Resolved of = access_of(one, whole);
        if (!of.there() || !cuts_of[of.thing] || !is_chosen(one)) return;
        const parts::Cuts &ends = cuts[cuts_of[of.thing]];
        parts::Span span = span_of(of);
        for (size_t part = span.from; part < span.end; part++) kept[ends.first + part].chosen = true;
    });
    for (parts::Seen &part : kept) {
        if (!part.shared() || part.chosen) continue;
        counts.not_chosen++;
        part.written = false;
    }
}

const std::string &Trace::location(const record &one) {
    std::string &known = locations.of(one);
    if (!known.empty()) return known;
    const char *inside = is_end(one) ? "return" : one.kind == FREED ? "free" : is_try(one) ? "try" : "";
    return known = modules.location(one.pc, one.stack, options.frames, inside);
}

}
