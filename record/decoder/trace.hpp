// The records of one run, and what is printed. They go by several times, so memory grows with the variables
// and not with the records.
#pragma once
#include <atomic>
#include <cstdio>
#include <map>
#include <optional>
#include <set>
#include <string>
#include <unordered_map>
#include <unordered_set>
#include <vector>
#include "ahead.hpp"
#include "deadlocks.hpp"
#include "forks.hpp"
#include "leaving.hpp"
#include "lines.hpp"
#include "lives.hpp"
#include "losses.hpp"
#include "names.hpp"
#include "objects.hpp"
#include "operations.hpp"
#include "ordered.hpp"
#include "pages.hpp"
#include "pieces.hpp"
#include "parts.hpp"
#include "places.hpp"
#include "polls.hpp"
#include "raw.hpp"
#include "relaxed.hpp"
#include "streams.hpp"
#include "values.hpp"

namespace trace {

constexpr size_t MOST_THREADS = 256;
// The most events of a trace without a limit of events and threads.
constexpr u64 NO_LIMIT = UINT64_MAX;

struct Options {
    // The first event that is written, and how many at most.
    u64 first = 0, most = NO_LIMIT;
    size_t frames = places::MOST_FRAMES;
    bool frees = true, raw_names = false;
    // Whether accesses that can't race are written too, and each look of a loop that polls.
    bool all = false;
    // Where the accesses that are left out are named; nowhere if it is empty.
    std::string ordered;
    // Where the values of the events are written; nowhere if it is empty.
    std::string values;
    // Variables that these files access; empty for all variables.
    std::vector<std::string> only;
    // Libraries that may be without hooks: how their names begin.
    std::vector<std::string> trusted;
    // Why records had no room if the disk had some, and whether a signal ended the program.
    std::string cause = "ROOM";
    bool killed = false;
    // How many workers go over the records; 0 for one on each processor, and for less if the recording is short.
    size_t workers = 0;
};

// What a record is of: a thing, a place in it, and how many bytes.
struct Resolved {
    objects::Thing thing = objects::NOTHING;
    u64 place = 0, size = 0;
    bool there() const { return thing != objects::NOTHING; }
};

struct Lock {
    objects::Thing thing;
    u64 place;
    bool operator==(const Lock &other) const { return thing == other.thing && place == other.place; }
};
struct LockHash {
    size_t operator()(const Lock &lock) const {
        return (lock.thing * 0x9e3779b97f4a7c15ull) ^ (lock.place * 0xc2b2ae3d27d4eb4full);
    }
};

// The posts of a semaphore and its waits, in their order. Wait K comes after post K, if no wait came before its post;
// `ahead` waits need no post. `value` is what the semaphore began with, if that is known.
struct Counted {
    u64 posts = 0, waits = 0, ahead = 0, value = 0;
    u32 made = 0;
    bool any = false, mixed = false;
    void see(const record &one);
    bool is_whole() const { return any && !mixed && made <= 1; }
};

// What was seen of a lock or semaphore: who has it how often; whether its sections are none, since it is let go by a
// thread that does not hold it or taken while another does; whether a try was refused; which readers came in. A
// semaphore that each thread takes and then posts, one at a time, has sections too.
struct LockSeen {
    u16 holder = 0;
    int64_t times = 0;
    bool uneven = false, tried = false, passes = false, is_lock = false;
    // Whether a library without hooks takes it: what its sections access is not known.
    bool by_library = false;
    std::set<u16> readers;
    Counted counted;
    streams::Stream stream;
    void see(const record &one);
    // Whether each wait comes after one post alone.
    bool is_counted() const { return counted.is_whole() && !is_lock && !tried && (uneven || counted.value > 1); }
    bool is_stream() const { return stream.is_whole(); }
    // Whether each one that comes has the order that it had.
    bool is_chain() const { return !is_counted() && !is_stream() && (uneven || by_library || (passes && is_lock)); }
};

struct Counts {
    // `cut_short` is how many parts an access has at most, and `cut_accesses` how many have more.
    u64 before = 0, written = 0, left_out = 0, cut_short = 0, cut_accesses = 0, no_sections = 0, not_chosen = 0;
    u64 by_library = 0, stronger = 0, threads = 0, bytes = 0;
    // What can't race: accesses, and parts of variables. Looks of loops that poll.
    u64 ordered = 0, ordered_parts = 0, polls = 0;
    bool too_many_threads = false;
};

// Whether a record takes a lock or semaphore, and whether it lets it go.
bool is_taken(const record &one);
bool is_let_go(const record &one);
// Whether a call takes it that waits for nobody, or not for ever.
bool is_try(const record &one);

using operations::Operation;
using operations::Operations;

// A line of the trace that is ready to be written.
struct Line {
    std::string text;
    u64 event, record, other;
    u16 thread;
};

using raw::is_plain;
bool is_access(const record &one);
bool is_atomic(int kind);
bool is_synchronization(int kind);
bool is_write(const record &one);
// Whether it is the end of an activation whose frame another thread used.
bool is_end(const record &one);
// Whether a record uses a lock, semaphore or barrier that may be destroyed.
bool is_use(const record &one);

// Whether a thing begins, or has another size from now on.
bool is_beginning(const record &one);

// What is kept for each location: those of frees, of ends of frames, of locks by a try, and of all other records.
template <class T> class Locations {
public:
    T &of(const record &one) {
        places::Key key{one.pc, one.stack};
        return is_end(one) ? ends[key] : one.kind == FREED ? frees[key] : is_try(one) ? tries[key] : others[key];
    }

private:
    std::unordered_map<places::Key, T, places::KeyHash> frees, ends, tries, others;
};

// The number of what is no memory, with its kind.
inline u64 key_of(const record &one) { return static_cast<u64>(one.of) << 56 ^ one.at; }

class Trace {
public:
    Trace(const raw::File &file, const Options &options);
    // Writes the trace, and the number of each event's record if a file for them is given.
    Counts write(FILE *out, FILE *numbers);
    // What is not in the trace, once it is written.
    losses::Losses losses() const;
    // The deadlock that the run ended in, once the trace is written; empty without a deadlock.
    std::vector<deadlocks::Wait> deadlock();
    // Writes which accesses are not, since forks and joins order them, to the file of the options.
    void write_ordered();
    // Writes what each event of the trace read or wrote, if that is known, as lines `EVENT VALUE`.
    void write_values();
    // Where accesses are written with more order than they have.
    std::set<std::string> stronger_places();

private:
    // What workers find in a piece, before all is put together.
    class Comers;
    class Cutter;
    class Parted;
    class Words;
    class Maker;
    struct Stretch;
    struct Stretches;
    template <class Do> void each(Do what);
    // A record, its number and what it is of. If that is cut, `cuts` is the number of its cuts, and the parts are those
    // from `from` on and before `end`.
    struct Found {
        u64 number;
        record one;
        Resolved of;
        u32 cuts;
        size_t from, end;
    };
    Found found_of(u64 number, const record &one, const Resolved &of, parts::Spans &known) const;
    template <class Do> void walk_written(const pieces::Piece &piece, Do what) const;
    template <class Do> void each_written(Do what);
    template <class Worker> void each_piece(const pieces::Pieces &some, std::vector<Worker> &workers) const;
    // What a record is of, in a walk over the records.
    Resolved of_record(objects::Objects &its, const record &one) const {
        if (!is_plain(one)) return resolve(its, one);
        objects::Where where = its.at(one.at);
        return {where.thing, where.place, one.size};
    }
    Resolved resolve(objects::Objects &its, const record &one) const;
    Resolved freed_by(objects::Objects &its, const record &one) const;
    size_t workers() const;
    void find_pieces();
    // What was seen of a lock: most records are of the lock of the last one.
    LockSeen &lock_of(const Lock &lock) {
        if (!last_lock || !(last_lock->first == lock)) last_lock = &*locks.try_emplace(lock).first;
        return last_lock->second;
    }
    void see_user(u64 number, const record &one);
    void see_border(u64 number, const record &one);
    void drop_single_users();
    void find_shared();
    // What a record accesses: an access itself, or the first byte of a lock.
    Resolved access_of(const record &one, const Resolved &of) const {
        return is_plain(one) || !of.there() || is_access(one) ? of : access_of_use(one, of);
    }
    Resolved access_of_use(const record &one, const Resolved &of) const;
    void find_cuts();
    void keep_last_places(const std::vector<places::Key> &last);
    void settle_cuts();
    void count_beyond();
    bool gives_more_parts();
    void see_parts();
    bool see_parts_in(const pieces::Pieces &some);
    bool join_parts(std::vector<Parted> &all);
    void number_things();
    void find_kept();
    void choose();
    void find_relaxed();
    void leave_out();
    void find_polls();
    void see_lock(const record &one, const Resolved &of);
    parts::Span span_of(const Resolved &of) { return span_in(spans, of, cuts[cuts_of.of(of.thing)]); }
    // The parts of an access, of a thing with these cuts. A call would take longer than what it does.
    [[gnu::always_inline]] parts::Span span_in(parts::Spans &spans, const Resolved &of, const parts::Cuts &ends) const {
        if (!ends.is_even()) return searched_span(spans, of, ends);
        auto [from, to] = ends.between(of.place, of.place + of.size);
        return {of.thing, of.place, of.size, from, to, std::min(to, from + most_parts)};
    }
    const parts::Span &searched_span(parts::Spans &spans, const Resolved &of, const parts::Cuts &ends) const;
    bool is_chosen(const record &one);
    std::string name_of(const Operation &operation);
    u64 size_at(objects::Thing thing, u64 place);
    const std::string &location(const record &one);
    void add_name(std::string &to, const Operation &operation);
    static std::string whole_name(const Operation &operation, const std::string &name);
    static void add_head(std::string &to, const record &one, const Operation &operation);
    static void add_end(std::string &to, const std::string &location);
    void add_text(std::string &to, const record &one, const Operation &operation);
    Line held_line(const record &one, size_t number, const Operation &operation);
    // An operation of a record, and the number of that.
    struct Event {
        u64 number;
        record one;
        Operation operation;
    };
    const std::string &line_of(const Event &event);
    void write_event(const Event &event);
    template <class Write> void find_events(const Found &found, const Operations &operations, Write write);
    template <class Write> void each_event(Write write);
    bool is_all_written() const;
    void write_events();
    void write_stretch(Stretch &one, std::mutex &naming);
    void write_stretches();
    void pass_by(const record &one, size_t number, const Operation &operation);
    void open();
    void write_text(const std::string &text, u64 number);
    bool fits(u16 thread, u64 other);
    void put(const char *text, size_t size);
    void flush();
    void see_deadlock(const record &one, const Resolved &of);
    std::string value_of(const values::Values &known, const Found &found, const Operation &operation);

    const raw::File &file;
    Options options;
    places::Modules modules;
    objects::Objects things;
    names::Names names;
    std::unordered_map<u64, parts::Seen> users;
    std::unordered_map<u64, objects::Thing> user_locks;
    parts::PerThing<parts::Seen> seen;
    // The cuts of a thing, by their number; 0 is that of none.
    parts::PerThing<u32> cuts_of;
    std::vector<parts::Cuts> cuts;
    // How many parts an access gives, and how many more all would give by each number of MORE_PARTS.
    size_t most_parts = parts::MOST_PARTS;
    parts::Beyond beyond = {};
    std::vector<parts::Seen> kept;
    parts::Spans spans;
    parts::Wide wide;
    std::unordered_map<Lock, LockSeen, LockHash> locks;
    std::pair<const Lock, LockSeen> *last_lock = nullptr;
    pieces::Pieces pieces;
    // Where each thread was at its last record before each piece.
    std::vector<std::vector<places::Key>> last_places;
    Locations<std::string> locations;
    std::unordered_map<places::Key, bool, places::KeyHash> chosen_places;
    // The threads of the events that are written, and whether there is a second thread in the recording.
    std::unordered_set<u64> threads;
    u64 last_fitting = NO_LIMIT;
    lines::Lines known_lines;
    // The names that parts have so far. One thread gives them, and others read them.
    std::vector<std::atomic<const std::string *>> part_names;
    bool has_threads = false, has_uses = false;
    forks::Forks forks;
    lives::Lives lives;
    relaxed::Relaxed relaxed;
    relaxed::Stronger stronger;
    deadlocks::Holders holders;
    // The last records of a run that ended in a deadlock, each with what it waits for.
    std::vector<std::pair<record, Resolved>> requests;
    moments::Moments order;
    std::vector<leaving::Leaving> left;
    // The page of each part; the pages of parts that are written, those of locks, semaphores and barriers, and those of
    // accesses of shared things.
    std::vector<u32> page_of;
    pages::Set written_pages, used_pages, shared_pages;
    polls::Polls polls;
    std::optional<ordered::Ordered> ordered;
    // Before the first event that is written: the acquires of locks that are held.
    std::map<std::pair<u16, std::string>, std::vector<Line>> held;
    bool is_open = false;
    Counts counts;
    FILE *out = nullptr, *numbers = nullptr;
    // Text that is not yet written, and how much is written at once.
    static constexpr size_t AT_ONCE = 1 << 18;
    std::string written, line;
};

// All that happened goes by once more, each record with what it is of.
template <class Do> void Trace::each(Do what) {
    things.restart();
    for (raw::Records records(file); records.next();)
        what(records.number(), records.one(), of_record(things, records.one()));
}

// A piece goes by without plain accesses of which nothing is written, until `what` is false.
template <class Do> void Trace::walk_written(const pieces::Piece &piece, Do what) const {
    objects::Objects its(things, piece.ground);
    parts::Spans known;
    for (raw::Records records(file, piece.start, piece.end); records.next();) {
        const record &one = records.one();
        if (is_plain(one) && !written_pages.may_have(one.at, one.size)) continue;
        if (!what(found_of(records.number(), one, of_record(its, one), known))) return;
    }
}

// All pieces go by so, one after another. If there are several, each has a thread, which goes ahead of what is used.
template <class Do> void Trace::each_written(Do what) {
    std::vector<std::unique_ptr<ahead::Ahead<Found>>> begun(pieces.size());
    for (size_t k = 0; k < pieces.size() && pieces.size() > 1; k++) {
        auto find = [this, k](auto &to) {
            this->walk_written(pieces[k], [&to](const Found &one) { return to.put(one); });
        };
        begun[k] = std::make_unique<ahead::Ahead<Found>>();
        if (!begun[k]->begin(find)) begun[k].reset();
    }
    for (size_t k = 0; k < pieces.size(); k++) {
        if (begun[k]) begun[k]->take(what);
        else walk_written(pieces[k], [&what](const Found &one) { return what(one), true; });
        begun[k].reset();
    }
}

// The pieces go by side by side, each with its worker, which sees the records that it wants.
template <class Worker> void Trace::each_piece(const pieces::Pieces &some, std::vector<Worker> &workers) const {
    pieces::side_by_side(some.size(), [&](size_t k) {
        Worker &worker = workers[k];
        objects::Objects its(things, some[k].ground);
        for (raw::Records records(file, some[k].start, some[k].end); records.next();) {
            const record &one = records.one();
            if (worker.wants(one)) worker.see(records.number(), one, of_record(its, one));
        }
    });
}

}
