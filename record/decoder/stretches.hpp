// The text of the trace as several workers make it: each makes that of one stretch of the recording after another, and
// the stretches are written in their order.
#pragma once
#include "turns.hpp"
#include "words.hpp"

namespace trace {

// The text of a stretch. A line with a name that nobody has given yet is a gap in it. It is filled when the stretch is
// written, so names are given in the order of the trace.
struct Trace::Stretch {
    struct Gap {
        size_t at;
        Event event;
    };
    std::string text;
    std::vector<Gap> gaps;
    // The number of each event's record, if it is wanted.
    std::vector<u64> numbers;
    relaxed::Stronger stronger;
    bool is_large() const { return text.size() + gaps.size() * sizeof(Gap) > MOST_BYTES; }
    void clear() { text.clear(), gaps.clear(), numbers.clear(), stronger = {}; }

private:
    // What has more is written in parts.
    static constexpr size_t MOST_BYTES = 1 << 21;
};

// What the workers share.
struct Trace::Stretches {
    Stretches(Trace &trace, size_t workers);
    const Trace &trace;
    // How many words a stretch has, and whether locks change as records go by.
    u64 words;
    bool has_states;
    turns::Turns<Stretch> turns;
    // Held by who looks for names or locations, or gives them.
    std::mutex naming;
    const std::string &location(const record &one);
    // The name of a place; nothing if it has none yet.
    const std::string *name(const names::Key &key);

private:
    Trace &names_of;
};

// A worker. It goes over all records, since each stretch begins with what is known of the records before.
class Trace::Maker {
public:
    explicit Maker(Stretches &all);
    // Makes stretches until the last one has a worker.
    void run();
    // How many events there are, how many looks of loops were left out, and the threads of the events.
    u64 events = 0, left_out = 0;
    std::unordered_set<u64> threads;

private:
    void go_to(u64 word);
    bool make(size_t number);
    void see(const Found &found);
    void add(const Found &found, const Operation &operation);
    bool add_line(std::string &to, const record &one, const Operation &operation);
    bool add_name(std::string &to, const Operation &operation);
    const std::string *name_of(const Operation &operation);
    const std::string &location_of(const record &one);
    Stretches &all;
    const Trace &trace;
    objects::Objects its;
    raw::Records records;
    parts::Spans spans;
    Words words;
    lines::Lines known_lines;
    Stretch stretch;
    std::string scratch;
    u64 last_thread = NO_LIMIT;
    std::unordered_map<names::Key, const std::string *, names::KeyHash> known_names;
    Locations<const std::string *> known_locations;
};

}
