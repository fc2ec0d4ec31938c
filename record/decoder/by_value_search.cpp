#include "by_value.hpp"
#include <algorithm>
#include <ctime>
#include <unordered_set>
#include "raw.hpp"

namespace by_value {

// How many of the tries of a pair of locations also run the thread of the second access first.
constexpr size_t RUN_FIRST = 4;

static double now() {
    timespec time;
    clock_gettime(CLOCK_MONOTONIC, &time);
    return static_cast<double>(time.tv_sec) + static_cast<double>(time.tv_nsec) / 1e9;
}

Search::Search(const Trace &trace, const Limits &limits) : trace(trace), limits(limits), begun(now()) {
    if (trace.threads && trace.events.size() > limits.cells / trace.threads)
        throw raw::Wrong("the trace is too long for --by-value");
}

bool Search::is_late() const { return now() - begun >= limits.seconds; }

u64 Search::key_of(int a, int b) const {
    u64 one = static_cast<u32>(trace.events[a].location), other = static_cast<u32>(trace.events[b].location);
    return std::min(one, other) << 32 | std::max(one, other);
}

void Search::leave_out(int a, int b) {
    int last = static_cast<int>(trace.events.size());
    if (a >= 0 && b >= 0 && a < last && b < last) rows[key_of(a, b)].left_out = true;
}

void Search::run() {
    find_rows();
    wait_at_all();
    if (missing() && trace.events.size() <= limits.short_trace) explore();
}

// The pairs of locations that no order keeps apart, each with the pairs of events to try: the nearest ones.
void Search::find_rows() {
    Order order(trace);
    std::vector<std::unordered_map<int, std::vector<int>>> accesses(trace.variables);
    for (int b = 0; b < static_cast<int>(trace.events.size()); b++) {
        const Event &one = trace.events[b];
        if (one.kind > WRITE) continue;
        see_access(b, accesses[one.object], order);
        accesses[one.object][one.thread].push_back(b);
    }
}

void Search::see_access(int b, std::unordered_map<int, std::vector<int>> &accesses, const Order &order) {
    int base = trace.base[b];
    for (auto &[thread, earlier] : accesses) {
        if (thread == trace.events[b].thread) continue;
        int kept = base == NONE ? 0 : order.count(base, thread);
        for (size_t k = earlier.size(); k-- && trace.place[earlier[k]] >= kept;) {
            if (pairs >= limits.pairs) {
                untried_pairs += k + 1;
                break;
            }
            pairs++;
            if (trace.conflict(earlier[k], b) && !trace.share_lock(earlier[k], b))
                add_try(rows[key_of(earlier[k], b)], earlier[k], b);
        }
    }
}

// Keeps the nearest ones, each with another first event.
void Search::add_try(Row &row, int a, int b) {
    if (row.left_out) return;
    row.is_open = true;
    auto same = std::find_if(row.tries.begin(), row.tries.end(), [a](const Try &one) { return one.a == a; });
    if (same != row.tries.end()) return;
    Try made{b - a, a, b};
    auto at = std::upper_bound(row.tries.begin(), row.tries.end(), made,
                               [](const Try &x, const Try &y) { return x.distance < y.distance; });
    row.tries.insert(at, made);
    if (row.tries.size() > limits.waits) row.tries.pop_back();
}

// At each first event its thread waits, after all events before it, and the others go on.
void Search::wait_at_all() {
    std::vector<Try> all;
    std::unordered_set<int> firsts;
    for (auto &[key, row] : rows) {
        for (size_t k = 0; k < row.tries.size(); k++) {
            const Try &one = row.tries[k];
            if (firsts.insert(one.a).second) all.push_back({NONE, one.a, NONE});
            if (k < RUN_FIRST) all.push_back(one);
        }
    }
    std::sort(all.begin(), all.end(), [](const Try &x, const Try &y) {
        return std::pair{x.a, x.b} < std::pair{y.a, y.b};
    });
    State state(trace);
    for (size_t k = 0; k < all.size(); k++) {
        if (is_late()) {
            untried_waits = all.size() - k;
            return;
        }
        while (static_cast<int>(state.schedule().size()) < all[k].a)
            state.add(static_cast<int>(state.schedule().size()));
        waits++;
        if (all[k].b == NONE) wait_at(state, all[k].a);
        else run_first(state, all[k]);
        while (static_cast<int>(state.schedule().size()) > all[k].a) state.back();
    }
}

// The next event that may come: that of the preferred thread, or else the first one in the trace.
int Search::least(const State &state, int waiting, int preferred) const {
    int found = NONE;
    for (int t = 0; t < static_cast<int>(trace.threads); t++) {
        int e = t == waiting ? NONE : state.next(t);
        if (e == NONE || !state.may_come(e)) continue;
        if (t == preferred) return e;
        if (found == NONE || e < found) found = e;
    }
    return found;
}

void Search::wait_at(State &state, int a) {
    int waiting = trace.events[a].thread;
    for (size_t step = 0; step < limits.steps; step++) {
        for (int t = 0; t < static_cast<int>(trace.threads); t++) {
            int b = t == waiting ? NONE : state.next(t);
            if (b != NONE && trace.conflict(a, b)) see_pair(state, a, b);
        }
        int e = least(state, waiting, NONE);
        if (e == NONE) return;
        state.add(e);
    }
    cut_waits++;
}

// The same for one pair, whose second thread comes first wherever it may.
void Search::run_first(State &state, const Try &one) {
    auto row = rows.find(key_of(one.a, one.b));
    if (row != rows.end() && !row->second.shown.empty()) return;
    int waiting = trace.events[one.a].thread, preferred = trace.events[one.b].thread;
    for (size_t step = 0; step < limits.steps; step++) {
        int b = state.next(preferred);
        if (b == one.b) {
            see_pair(state, one.a, b);
            return;
        }
        int e = b == NONE || b < one.b ? least(state, waiting, preferred) : NONE;
        if (e == NONE) return;
        state.add(e);
    }
    cut_waits++;
}

// Keeps the schedule if it is wanted.
bool Search::see_pair(const State &state, int a, int b) {
    auto found = rows.find(key_of(a, b));
    if (found == rows.end() || found->second.left_out || found->second.shown.size() >= limits.schedules) return false;
    std::vector<Shown> &shown = found->second.shown;
    for (const Shown &one : shown)
        if (std::minmax(one.a, one.b) == std::minmax(a, b)) return false;
    shown.push_back({std::min(a, b), std::max(a, b), state.schedule()});
    return true;
}

// Two accesses that are next in their threads.
void Search::see_state(const State &state) {
    std::vector<int> next;
    for (int t = 0; t < static_cast<int>(trace.threads); t++)
        if (int e = state.next(t); e != NONE && trace.events[e].kind <= WRITE) next.push_back(e);
    for (size_t k = 0; k < next.size(); k++)
        for (size_t i = k + 1; i < next.size(); i++)
            if (trace.conflict(next[k], next[i])) see_pair(state, next[k], next[i]);
}

// Goes through all states that some order reaches, each once.
void Search::explore() {
    State state(trace);
    std::unordered_set<u64> known{state.hash()};
    std::vector<int> begun_with{0};
    see_state(state);
    while (!begun_with.empty()) {
        int &t = begun_with.back();
        if (t == static_cast<int>(trace.threads)) {
            begun_with.pop_back();
            if (!begun_with.empty()) state.back();
            continue;
        }
        int e = state.next(t++);
        if (e == NONE || !state.may_come(e)) continue;
        if (known.size() >= limits.states || is_late()) {
            states = known.size();
            return;
        }
        state.add(e);
        if (known.insert(state.hash()).second) see_state(state), begun_with.push_back(0);
        else state.back();
    }
    states = known.size();
    explored = true;
}

// How many pairs of locations are open and have no schedule.
size_t Search::missing() const {
    return static_cast<size_t>(std::count_if(rows.begin(), rows.end(), [](auto &row) {
        return row.second.is_open && !row.second.left_out && row.second.shown.empty();
    }));
}

void Search::print(FILE *schedules, FILE *facts) const {
    std::vector<const Shown *> all;
    size_t shown = 0;
    for (auto &[key, row] : rows) {
        shown += !row.shown.empty();
        for (const Shown &one : row.shown) all.push_back(&one);
    }
    std::sort(all.begin(), all.end(), [](const Shown *x, const Shown *y) {
        return std::pair{x->b, x->a} < std::pair{y->b, y->a};
    });
    for (const Shown *one : all) {
        fprintf(schedules, "shown %d %d", one->a, one->b);
        for (int event : one->schedule) fprintf(schedules, " %d", event);
        fputc('\n', schedules);
    }
    auto print_fact = [facts](const char *name, size_t number) { fprintf(facts, "fact %s %zu\n", name, number); };
    print_fact("shown", shown);
    print_fact("open", missing());
    print_fact("waits", waits);
    print_fact("untried", untried_waits);
    print_fact("cut", cut_waits);
    print_fact("pairs", pairs);
    print_fact("untried_pairs", untried_pairs);
    print_fact("states", states);
    print_fact("explored", explored);
}

}
