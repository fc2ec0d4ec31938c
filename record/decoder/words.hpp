// What records become in the trace, as one walk over them finds it. A walk begins with the first record.
#pragma once
#include "trace.hpp"

namespace trace {

class Trace::Words {
public:
    // Accesses that forks and joins order are kept in `ordered`, if it is given.
    explicit Words(const Trace &trace, ordered::Ordered *ordered = nullptr) : trace(trace), ordered(ordered) {}
    // What a record becomes. The next call changes it.
    const Operations &of(const Found &found);
    // A record of a lock goes by, and what it becomes is not wanted.
    void pass_by(const record &one, const Resolved &of);
    // The atomic accesses that were written with more order than they have.
    relaxed::Stronger stronger;

private:
    // What changes of a lock as records go by: the posts and waits of a semaphore, the place in a stream, and whether
    // the last section was a writer's.
    struct State {
        u64 posts = 0, waits = 0;
        streams::Place place;
        bool is_written = false;
    };
    const LockSeen &lock_of(const Lock &lock);
    State &state_of(const Resolved &of) { return states[{of.thing, of.place}]; }
    void find_accesses(const Found &found);
    void find_atomic(const Found &found, const parts::Cuts &ends);
    void add_atomic(const record &one, const parts::Cuts &ends, relaxed::Form form, const Resolved &of);
    void add_acquired(size_t number);
    void add_released(size_t number);
    void add_use(const Resolved &of);
    void add_counted(const record &one, const Resolved &of, const LockSeen &known);
    void add_message(const record &one, const Resolved &of, const streams::Stream &stream);
    void add_chain(const record &one, const Resolved &of);
    void find_synchronization(const record &one, const Resolved &of);
    void find_section(const record &one, const Resolved &of, const LockSeen &known);
    void add_states(const Resolved &of, const std::vector<int> &threads, const char *word);
    void add_section(const Resolved &of, bool takes, bool tried, const std::vector<int> &threads);
    void add_meeting(const Resolved &of, u64 meeting, bool comes);
    const Trace &trace;
    ordered::Ordered *ordered;
    Operations operations;
    std::vector<size_t> written_parts;
    std::vector<int> section_threads;
    parts::Spans spans;
    std::unordered_map<Lock, State, LockHash> states;
    const std::pair<const Lock, LockSeen> *last_lock = nullptr;
};

}
