// Which events of the trace are written, and how.
#include "words.hpp"
#include "text.hpp"
#include <algorithm>
#include <charconv>
#include <cstring>

namespace trace {

// Whether an event of the two threads is within the limits of a trace.
bool Trace::fits(u16 thread, u64 other) {
    if (counts.left_out || counts.written >= options.most) return false;
    if (thread == other && thread == last_fitting) return true;
    threads.insert(thread);
    threads.insert(other);
    if (threads.size() > MOST_THREADS && options.most != NO_LIMIT) counts.too_many_threads = true;
    else last_fitting = thread;
    return !counts.too_many_threads;
}

// The name of a part is looked up once.
void Trace::add_name(std::string &to, const Operation &operation) {
    if (operation.part == operations::NO_PART) {
        to += text::fitting(name_of(operation));
        return;
    }
    const std::string *known = part_names[operation.part].load(std::memory_order_relaxed);
    if (!known) {
        known = &names.of(operation.thing, operation.place, size_at(operation.thing, operation.place));
        part_names[operation.part].store(known, std::memory_order_release);
    }
    to += *known;
}

// What comes before the name in a line, and what comes after it.
void Trace::add_head(std::string &to, const record &one, const Operation &operation) {
    char thread[16];
    auto end = std::to_chars(thread, thread + sizeof thread, one.thread).ptr;
    to += 'T';
    to.append(thread, end);
    to += '|';
    to += operation.word;
    to += '(';
}

void Trace::add_end(std::string &to, const std::string &location) {
    to += ")|";
    to += location;
    to += '\n';
}

void Trace::add_text(std::string &to, const record &one, const Operation &operation) {
    add_head(to, one, operation);
    add_name(to, operation);
    add_end(to, location(one));
}

Line Trace::held_line(const record &one, size_t number, const Operation &operation) {
    u64 other = one.kind == FORK || one.kind == JOIN ? one.at : one.thread;
    std::string text;
    add_text(text, one, operation);
    return {text, counts.before, number, other, one.thread};
}

void Trace::write_text(const std::string &text, u64 number) {
    put(text.data(), text.size());
    if (numbers) fwrite_unlocked(&number, sizeof number, 1, numbers);
}

const std::string &Trace::line_of(const Event &event) {
    bool comes_again = !event.operation.meeting && !is_try(event.one);
    line.clear();
    std::string &text = comes_again ? known_lines.text_of(event.one, event.operation) : line;
    if (text.empty()) add_text(text, event.one, event.operation);
    return text;
}

void Trace::write_event(const Event &event) { write_text(line_of(event), event.number); }

// An event that is not written, since it comes before the first one that is.
void Trace::pass_by(const record &one, size_t number, const Operation &operation) {
    if (!strcmp(operation.word, "acq")) {
        held[{one.thread, name_of(operation)}].push_back(held_line(one, number, operation));
    } else if (!strcmp(operation.word, "rel")) {
        auto lock = held.find({one.thread, name_of(operation)});
        if (lock != held.end() && !lock->second.empty()) lock->second.pop_back();
    }
    counts.before++;
}

// Instead of the events before, the trace has the acquires of the locks that are held.
void Trace::open() {
    is_open = true;
    std::vector<Line> lines;
    for (auto &lock : held) lines.insert(lines.end(), lock.second.begin(), lock.second.end());
    std::sort(lines.begin(), lines.end(), [](const Line &a, const Line &b) { return a.event < b.event; });
    for (const Line &line : lines) {
        if (!fits(line.thread, line.other)) counts.left_out++;
        else counts.written++, write_text(line.text, line.record);
    }
    held.clear();
}

// `write` gets the events that are written.
template <class Write> void Trace::find_events(const Found &found, const Operations &operations, Write write) {
    const record &one = found.one;
    u64 number = found.number;
    u64 other = one.kind == FORK || one.kind == JOIN ? one.at : one.thread;
    if (!is_open && !operations.empty() && counts.before >= options.first) open();
    for (const Operation &operation : operations) {
        if (!is_open) pass_by(one, number, operation);
        else if (fits(one.thread, other)) counts.written++, write(Event{number, one, operation});
        else counts.left_out++;
    }
}

// Finds the looks of loops that poll before anything is written.
void Trace::find_polls() {
    if (!polls.is_wanted()) return;
    Words words(*this);
    each_written([this, &words](const Found &found) { polls.see_event(found.number, found.one, words.of(found)); });
}

template <class Write> void Trace::each_event(Write write) {
    Words words(*this, ordered ? &*ordered : nullptr);
    each_written([this, &write, &words](const Found &found) {
        const Operations &operations = words.of(found);
        if (polls.is_left_out(found.number)) counts.polls++;
        else find_events(found, operations, write);
        if (file.top().deadlock) see_deadlock(found.one, found.of);
    });
    stronger = std::move(words.stronger);
}

// Whether the trace has all events, and no option needs another result of the walk.
bool Trace::is_all_written() const {
    return !options.first && options.most == NO_LIMIT && !ordered && !file.top().deadlock;
}

// If there are several workers, all make the text. If only some events are written, one finds them while the text of
// earlier ones is made. With --from both would need names.
void Trace::write_events() {
    if (pieces.size() > 1 && is_all_written()) return write_stretches();
    ahead::Ahead<Event> events;
    auto find = [this](auto &to) { this->each_event([&to](const Event &event) { to.put(event); }); };
    auto write = [this](const Event &event) { write_event(event); };
    if (pieces.size() > 1 && !options.first && events.begin(find)) events.take(write);
    else each_event(write);
}

Counts Trace::write(FILE *to, FILE *to_numbers) {
    out = to;
    numbers = to_numbers;
    written.reserve(AT_ONCE + AT_ONCE / 4);
    put(losses::BEGIN, strlen(losses::BEGIN));
    find_polls();
    if (!options.ordered.empty()) ordered.emplace(kept.size());
    write_events();
    counts.stronger = stronger.count;
    counts.threads = threads.size();
    std::string last = losses().end();
    put(last.data(), last.size());
    flush();
    return counts;
}

void Trace::see_deadlock(const record &one, const Resolved &of) {
    holders.see(one);
    if (one.kind == REQUEST) requests.push_back({one, of});
}

// Each thread waits for the next one, and the last for the first.
std::vector<deadlocks::Wait> Trace::deadlock() {
    std::vector<deadlocks::Wait> found;
    for (size_t k = 0; k < requests.size(); k++) {
        const record &one = requests[k].first;
        u16 holder = requests[(k + 1) % requests.size()].first.thread;
        std::optional<places::Key> since = holders.since(one.at, holder);
        std::string lock = name_of({"", "", requests[k].second.thing, requests[k].second.place});
        std::string held_at = since ? modules.place(since->pc, since->call) : "?";
        found.push_back({one.thread, holder, modules.place(one.pc, one.stack), lock, held_at});
    }
    return found;
}

// The places of records, each given by its code and its calls.
static std::set<std::string> places_of(places::Modules &modules, const std::map<u64, u32> &records) {
    std::set<std::string> found;
    for (auto &at : records) found.insert(modules.place(at.first, at.second));
    return found;
}

std::set<std::string> Trace::stronger_places() { return places_of(modules, stronger.places); }

void Trace::write_ordered() {
    FILE *to = fopen(options.ordered.c_str(), "w");
    if (!to) throw raw::Wrong(options.ordered + ": can't be written");
    ordered->write(to, counts.bytes, [this](const record &one) { return location(one); });
    if (fclose(to)) throw raw::Wrong(options.ordered + ": can't be written");
}

// The text is written when there is much of it.
void Trace::put(const char *text, size_t size) {
    counts.bytes += size;
    if (size < AT_ONCE / 4) {
        written.append(text, size);
        if (written.size() >= AT_ONCE) flush();
        return;
    }
    flush();
    fwrite_unlocked(text, 1, size, out);
}

void Trace::flush() {
    fwrite(written.data(), 1, written.size(), out);
    written.clear();
}

losses::Losses Trace::losses() const {
    const head &top = file.top();
    losses::Losses found;
    found.add("FROM", counts.before, 0);
    found.add("ONLY", counts.not_chosen, 0);
    found.add("PARTS", counts.cut_accesses, 0);
    found.add("FORK", top.forks, 0);
    found.add("EXEC", top.programs, 0);
    std::vector<std::string> objects = modules.bare_objects(), libraries = modules.unknown_libraries(options.trusted);
    found.add("HOOKS", objects.size(), 0, objects);
    found.add("LIBRARY", libraries.size(), 0, libraries);
    found.add(counts.too_many_threads ? "THREADS" : "MAX", counts.left_out, counts.written);
    found.add("THREADS", top.unrecorded, counts.written);
    found.add(top.full ? "DISK" : options.cause, file.lost(), counts.written);
    if (top.deadlock) found.add_uncounted("DEADLOCK", counts.written);
    if (options.killed) found.add_uncounted("KILLED", counts.written);
    if (!has_threads) found.add_uncounted("ONE THREAD", counts.written);
    return found;
}

}
