// A search for races by value: schedules in which a read may see any write of the value that it saw. It is not proved,
// and may miss some. record/by_value.py judges each schedule by the definition.
#pragma once
#include <cstdio>
#include <string>
#include <unordered_map>
#include <utility>
#include <vector>
#include "../runtime/format.h"

namespace by_value {

constexpr int NONE = -1;

// How much is tried.
struct Limits {
    // Events of a location pair before which a thread waits, and steps after each; schedules of a location pair.
    size_t waits = 12, steps = 50000, schedules = 3;
    // States of a search through all orders, which only short traces get; pairs of events; rows times threads.
    size_t states = 200000, short_trace = 2000, pairs = 1 << 28, cells = 1 << 26;
    double seconds = 60;
};

// Its kind is READ, WRITE, ACQUIRE, RELEASE, FORK or JOIN, and its object a variable, a lock or a thread.
struct Event {
    int thread, kind, object, location, value;
};

// Numbers for names.
class Numbers {
public:
    int of(const std::string &name) { return numbers.emplace(name, static_cast<int>(numbers.size())).first->second; }
    size_t size() const { return numbers.size(); }

private:
    std::unordered_map<std::string, int> numbers;
};

// A trace with its values.
class Trace {
public:
    Trace(const std::string &path, const std::string &values);
    bool conflict(int a, int b) const {
        const Event &one = events[a], &other = events[b];
        return one.kind <= WRITE && other.kind <= WRITE && one.object == other.object && one.thread != other.thread &&
            (one.kind == WRITE || other.kind == WRITE);
    }
    // Whether a read may see a write; NONE is the value before all writes.
    bool fits(int read, int write) const {
        if (write == writer[read]) return true;
        if (is_strict[read]) return false;
        return (write == NONE ? first_value[events[read].object] : events[write].value) == events[read].value;
    }
    // The locks that the thread of an event holds there; those of both events.
    bool share_lock(int a, int b) const;

    std::vector<Event> events;
    // The events of each thread, the place of an event in its thread, what is before it there or its fork.
    std::vector<std::vector<int>> of;
    std::vector<int> place, base;
    // The write that a read saw; the release of the section that an acquire begins; the fork of a thread.
    std::vector<int> writer, end, fork;
    // Whether a read keeps its writer. What a variable has before all writes; NONE if that is not known.
    std::vector<char> is_strict;
    std::vector<int> first_value;
    // The number of the set of locks that the thread of an event holds before it, and the sets.
    std::vector<int> held;
    std::vector<std::vector<int>> sets;
    size_t variables = 0, locks = 0, threads = 0;

private:
    void read_events(const std::string &path);
    void read_values(const std::string &path);
    void add_line(const std::string &line);
    void index();
    void find_sections();
    void find_strict();
    Numbers thread_names, variable_names, lock_names, location_names, value_names;
};

// How many events of each thread are before an event in each reordering by value, or are it: never too many.
class Order {
public:
    explicit Order(const Trace &trace);
    int count(int event, int thread) const { return rows[static_cast<size_t>(event) * threads + thread]; }

private:
    using Row = std::vector<int>;
    bool raise(int event);
    void join(Row &row, int event);
    void join_read(Row &row, int read);
    bool may_see_first(const Row &row, int read) const;
    void add_candidates(Row &row, int read, int own_write);
    void candidate(int write, int read);
    void join_sections(Row &row, int event);
    int last_acquire(int lock, int thread, int count) const;

    const Trace &trace;
    size_t threads;
    std::vector<int> rows;
    // The places of the acquires of a lock by a thread, of its writes of a variable, and of its writes of a value.
    std::unordered_map<u64, std::vector<int>> acquires, writes;
    std::unordered_map<u64, std::unordered_map<int, std::vector<int>>> writes_of;
    // While a row is raised: whether it grew; what all candidates of a read share.
    bool grew = false, any = false;
    Row shared;
};

// A schedule so far, which can be taken back event by event.
class State {
public:
    explicit State(const Trace &trace);
    void add(int event);
    void back();
    // The next event of a thread, or NONE.
    int next(int thread) const;
    bool may_come(int event) const;
    const std::vector<int> &schedule() const { return done; }
    // A number that equal states share.
    u64 hash() const { return sum; }

private:
    bool has_begun(int thread) const;
    u64 content_of(int variable, int write) const;
    const Trace &trace;
    std::vector<int> position, last, holder, depth, done, overwritten;
    std::vector<char> keeps_writer;
    u64 sum = 0;
};

// A schedule that shows a pair.
struct Shown {
    int a, b;
    std::vector<int> schedule;
};

class Search {
public:
    Search(const Trace &trace, const Limits &limits);
    // Pairs of locations that nothing is wanted of, by a pair of their events.
    void leave_out(int a, int b);
    void run();
    void print(FILE *schedules, FILE *facts) const;

private:
    struct Try {
        int distance, a, b;
    };
    // A pair of locations.
    struct Row {
        bool left_out = false, is_open = false;
        std::vector<Try> tries;
        std::vector<Shown> shown;
    };
    u64 key_of(int a, int b) const;
    bool is_late() const;
    void find_rows();
    void see_access(int b, std::unordered_map<int, std::vector<int>> &accesses, const Order &order);
    void add_try(Row &row, int a, int b);
    void wait_at_all();
    void wait_at(State &state, int a);
    void run_first(State &state, const Try &one);
    int least(const State &state, int waiting, int preferred) const;
    bool see_pair(const State &state, int a, int b);
    void explore();
    void see_state(const State &state);
    size_t missing() const;

    const Trace &trace;
    Limits limits;
    double begun;
    std::unordered_map<u64, Row> rows;
    size_t pairs = 0, untried_pairs = 0, waits = 0, untried_waits = 0, cut_waits = 0, states = 0;
    bool explored = false;
};

}
