#include "stretches.hpp"
#include "text.hpp"
#include <algorithm>

namespace trace {

// The most words of a stretch, and how many stretches each worker makes of a short recording.
constexpr u64 MOST_WORDS = 1 << 13, EACH = 8;
// How many stretches wait for their turn, for each worker.
constexpr size_t WAITING = 3;

Trace::Stretches::Stretches(Trace &trace, size_t workers)
    : trace(trace), words(std::clamp<u64>(trace.file.words() / (EACH * workers), 1, MOST_WORDS)),
      turns(WAITING * workers, [&trace, this](Stretch &one) { trace.write_stretch(one, naming); }), names_of(trace) {
    auto has_state = [](auto &lock) {
        return lock.second.is_counted() || lock.second.is_stream() || !lock.second.readers.empty();
    };
    has_states = std::any_of(trace.locks.begin(), trace.locks.end(), has_state);
}

const std::string &Trace::Stretches::location(const record &one) {
    std::lock_guard<std::mutex> guard(naming);
    return names_of.location(one);
}

const std::string *Trace::Stretches::name(const names::Key &key) {
    std::lock_guard<std::mutex> guard(naming);
    return names_of.names.given(key);
}

Trace::Maker::Maker(Stretches &all)
    : all(all), trace(all.trace), its(trace.things, trace.pieces[0].ground), records(trace.file), words(trace) {}

void Trace::Maker::run() {
    try {
        for (;;) {
            auto [number, empty] = all.turns.next();
            if (number * all.words >= trace.file.words()) return;
            stretch = std::move(empty);
            go_to(number * all.words);
            if (!make(number) || !all.turns.give(number, std::move(stretch))) return;
        }
    } catch (...) {
        all.turns.end();
        throw;
    }
}

// The records before a stretch are of others. What begins there is seen, and what is done to locks that have a state.
void Trace::Maker::go_to(u64 word) {
    records.stop_at(word);
    while (records.next_other_than_plain()) {
        const record &one = records.one();
        bool changes = all.has_states && is_synchronization(one.kind);
        if (!changes && !is_beginning(one)) continue;
        Resolved of = trace.resolve(its, one);
        if (changes && of.there()) words.pass_by(one, of);
    }
}

bool Trace::Maker::make(size_t number) {
    records.stop_at((number + 1) * all.words);
    while (records.next()) {
        const record &one = records.one();
        if (is_plain(one) && !trace.written_pages.may_have(one.at, one.size)) continue;
        see(trace.found_of(records.number(), one, trace.of_record(its, one), spans));
        if (stretch.is_large() && !all.turns.give_part(number, stretch)) return false;
    }
    std::swap(stretch.stronger, words.stronger);
    return true;
}

void Trace::Maker::see(const Found &found) {
    const Operations &operations = words.of(found);
    if (trace.polls.is_left_out(found.number)) {
        left_out++;
        return;
    }
    for (const Operation &operation : operations) add(found, operation);
}

void Trace::Maker::add(const Found &found, const Operation &operation) {
    const record &one = found.one;
    events++;
    bool has_other = one.kind == FORK || one.kind == JOIN;
    if (has_other) threads.insert(one.at);
    if (one.thread != last_thread) threads.insert(one.thread), last_thread = one.thread;
    if (trace.numbers) stretch.numbers.push_back(found.number);
    scratch.clear();
    bool comes_again = !operation.meeting && !is_try(one);
    std::string &line = comes_again ? known_lines.text_of(one, operation) : scratch;
    if (line.empty() && !add_line(line, one, operation)) {
        line.clear();
        stretch.gaps.push_back({stretch.text.size(), {found.number, one, operation}});
    }
    stretch.text += line;
}

// False if the name is not known.
bool Trace::Maker::add_line(std::string &to, const record &one, const Operation &operation) {
    add_head(to, one, operation);
    if (!add_name(to, operation)) return false;
    add_end(to, location_of(one));
    return true;
}

bool Trace::Maker::add_name(std::string &to, const Operation &operation) {
    if (operation.thing == objects::NOTHING) {
        to += whole_name(operation, "");
        return true;
    }
    const std::string *name = name_of(operation);
    if (!name) return false;
    to += operation.part == operations::NO_PART ? text::fitting(whole_name(operation, *name)) : *name;
    return true;
}

const std::string *Trace::Maker::name_of(const Operation &operation) {
    if (operation.part != operations::NO_PART) return trace.part_names[operation.part].load(std::memory_order_acquire);
    const std::string *&known = known_names[{operation.thing, operation.place}];
    if (!known) known = all.name({operation.thing, operation.place});
    return known;
}

const std::string &Trace::Maker::location_of(const record &one) {
    const std::string *&known = known_locations.of(one);
    if (!known) known = &all.location(one);
    return *known;
}

// The lines of gaps are made now.
void Trace::write_stretch(Stretch &one, std::mutex &naming) {
    size_t from = 0;
    for (const Stretch::Gap &gap : one.gaps) {
        put(one.text.data() + from, gap.at - from);
        from = gap.at;
        std::lock_guard<std::mutex> guard(naming);
        const std::string &line = line_of(gap.event);
        put(line.data(), line.size());
    }
    put(one.text.data() + from, one.text.size() - from);
    if (numbers) fwrite_unlocked(one.numbers.data(), sizeof(u64), one.numbers.size(), numbers);
    stronger.join(one.stronger);
    one.clear();
}

void Trace::write_stretches() {
    Stretches all(*this, pieces.size());
    std::vector<std::unique_ptr<Maker>> makers(pieces.size());
    pieces::side_by_side(makers.size(), [&](size_t k) {
        makers[k] = std::make_unique<Maker>(all);
        makers[k]->run();
    });
    for (auto &maker : makers) {
        counts.written += maker->events;
        counts.polls += maker->left_out;
        threads.insert(maker->threads.begin(), maker->threads.end());
    }
}

}
