// Which words a record becomes: docs/RECORDING.md says why.
#include "words.hpp"
#include "text.hpp"
#include <algorithm>

namespace trace {

// How many bytes the part at a place has; 1 if no part begins there, as that of a lock.
u64 Trace::size_at(objects::Thing thing, u64 place) {
    const parts::Cuts &ends = cuts[cuts_of.of(thing)];
    size_t part = ends.between(place, place).first;
    return part + 1 < ends.size() && ends.at(part) == place ? ends.at(part + 1) - place : 1;
}

// The name of a variable or lock, by that of its place.
std::string Trace::whole_name(const Operation &operation, const std::string &name) {
    if (operation.thing == objects::NOTHING) return operation.before + std::to_string(operation.place);
    std::string whole = operation.before + name;
    if (operation.meeting) whole += "#" + std::to_string(operation.meeting);
    return operation.thread < 0 ? whole : whole + ":T" + std::to_string(operation.thread);
}

std::string Trace::name_of(const Operation &operation) {
    if (operation.thing == objects::NOTHING) return whole_name(operation, "");
    u64 size = size_at(operation.thing, operation.place);
    return whole_name(operation, names.of(operation.thing, operation.place, size));
}

bool is_taken(const record &one) {
    return one.kind == ACQUIRE || one.kind == WRITER || (one.kind == PASS && one.order == WAITED);
}

bool is_try(const record &one) {
    if (one.kind == PASS) return is_taken(one) && one.answer == BY_TRY;
    return (is_taken(one) || one.kind == READER_IN) && (one.order & BY_TRY);
}

bool is_let_go(const record &one) { return one.kind == RELEASE || (one.kind == PASS && one.order == POSTED); }

// Which waits came before as many posts.
void Counted::see(const record &one) {
    any |= one.kind == PASS;
    if (one.kind == WRITE) {
        made++, value = one.answer, ahead = std::max(ahead, value);
    } else if (one.kind == PASS && one.order == POSTED) {
        posts++;
    } else if (one.kind == PASS && one.order == WAITED) {
        waits++;
        if (waits > posts) ahead = std::max(ahead, waits - posts);
    } else if (one.kind == PASS) {
        mixed = true;
    }
}

void LockSeen::see(const record &one) {
    if (one.of == OF_CHANNEL && one.kind != ARRIVED && one.kind != WENT_ON) stream.see(one);
    else if (!one.of) counted.see(one);
    if (one.kind == WRITE) return;
    bool takes = is_taken(one), lets_go = is_let_go(one), pass = one.kind == PASS;
    tried |= one.kind == TRIED;
    passes |= pass;
    by_library |= !pass && (one.order & BY_LIBRARY);
    is_lock |= one.kind == ACQUIRE || one.kind == RELEASE || one.kind == WRITER || one.kind == READER_IN;
    if (one.kind == READER_IN || one.kind == READER_OUT) readers.insert(one.thread);
    bool taken_by_other = times && (holder != one.thread || (pass && takes));
    if ((pass && !takes && !lets_go) || ((takes || lets_go) && (taken_by_other || (lets_go && !times)))) {
        uneven = true;
        times = 0;
    } else if (takes) {
        holder = one.thread;
        times++;
    } else if (lets_go) {
        times--;
    }
}

// An atomic access of the states of a lock and of the locks of readers, of all at once.
void Trace::Words::add_states(const Resolved &of, const std::vector<int> &threads, const char *word) {
    for (int thread : threads) operations.push_back({"acq", "atomic:held:", of.thing, of.place, thread});
    for (int thread : threads) operations.push_back({word, "held:", of.thing, of.place, thread});
    for (size_t k = threads.size(); k--;) operations.push_back({"rel", "atomic:held:", of.thing, of.place, threads[k]});
}

// The begin or end of a section: of a lock, and of the locks of readers. The state is that of the first.
void Trace::Words::add_section(const Resolved &of, bool takes, bool tried, const std::vector<int> &threads) {
    if (!takes && tried) add_states(of, {threads.front()}, "w");
    for (size_t k = 0; k < threads.size(); k++) {
        int thread = takes ? threads[k] : threads[threads.size() - 1 - k];
        operations.push_back({takes ? "acq" : "rel", "", of.thing, of.place, thread});
    }
    if (takes && tried) add_states(of, {threads.front()}, "w");
}

// Who comes to a meeting reads and writes, and who goes on reads.
void Trace::Words::add_meeting(const Resolved &of, u64 meeting, bool comes) {
    operations.push_back({"acq", "", of.thing, of.place, -1, meeting});
    operations.push_back({"r", "sync:", of.thing, of.place, -1, meeting});
    if (comes) operations.push_back({"w", "sync:", of.thing, of.place, -1, meeting});
    operations.push_back({"rel", "", of.thing, of.place, -1, meeting});
}

// The release of another record that this one acquires: of each its lock, and a variable that it alone writes.
void Trace::Words::add_acquired(size_t number) {
    for (const forks::Step &source : trace.relaxed.orders.acquired(number)) {
        u64 release = trace.relaxed.orders.release(source.number);
        operations.push_back({"acq", "order:", objects::NOTHING, release});
        operations.push_back({"r", "sync:order:", objects::NOTHING, release});
        operations.push_back({"rel", "order:", objects::NOTHING, release});
    }
}

void Trace::Words::add_released(size_t number) {
    u64 release = trace.relaxed.orders.release(number);
    if (!release) return;
    operations.push_back({"acq", "order:", objects::NOTHING, release});
    operations.push_back({"w", "sync:order:", objects::NOTHING, release});
    operations.push_back({"rel", "order:", objects::NOTHING, release});
}

// The accesses of `written_parts`, in a lock of the variable: other threads may write it by atomic accesses too.
void Trace::Words::add_atomic(const record &one, const parts::Cuts &ends, relaxed::Form form, const Resolved &of) {
    u64 first = ends.at(written_parts[0] - ends.first);
    bool reads = form == relaxed::READS || (one.kind != ATOMIC_WRITE && form != relaxed::WRITES);
    bool writes = is_write(one) && form != relaxed::READS;
    operations.push_back({"acq", "atomic:", of.thing, first});
    for (size_t part : written_parts) {
        u64 place = ends.at(part - ends.first);
        if (reads) operations.push_back({"r", "", of.thing, place});
        if (writes) operations.push_back({"w", "", of.thing, place});
    }
    operations.push_back({"rel", "atomic:", of.thing, first});
}

void Trace::Words::find_atomic(const Found &found, const parts::Cuts &ends) {
    relaxed::Form form = trace.relaxed.form_of(found.number, found.one, written_parts, stronger);
    if (form != relaxed::NOTHING) add_atomic(found.one, ends, form, found.of);
    add_acquired(found.number);
    add_released(found.number);
}

void Trace::Words::find_accesses(const Found &found) {
    const record &one = found.one;
    if (!found.cuts) return;
    const parts::Cuts &ends = trace.cuts[found.cuts];
    written_parts.clear();
    for (size_t part = found.from; part < found.end; part++) {
        if (trace.kept[part].shared()) written_parts.push_back(part);
        if (trace.kept[part].ordered && ordered) ordered->see(part, one, is_write(one));
    }
    if (written_parts.empty()) return;
    if (is_atomic(one.kind)) return find_atomic(found, ends);
    for (size_t part : written_parts)
        operations.push_back({is_write(one) ? "w" : "r", "", found.of.thing, ends.at(part - ends.first), -1, 0, part});
}

// A use of a lock reads its first byte.
void Trace::Words::add_use(const Resolved &of) {
    const parts::Cuts &ends = trace.cuts[trace.cuts_of.of(of.thing)];
    parts::Span span = trace.span_in(spans, {of.thing, of.place, 1}, ends);
    for (size_t part = span.from; part < span.end; part++) {
        if (trace.kept[ends.first + part].shared()) operations.push_back({"r", "", of.thing, ends.at(part)});
    }
}

// Wait K of a semaphore comes after post K, counted from the first wait that needs one.
void Trace::Words::add_counted(const record &one, const Resolved &of, const LockSeen &known) {
    bool posts = one.order == POSTED;
    State &state = state_of(of);
    u64 number = posts ? ++state.posts : ++state.waits;
    if (!posts && number <= known.counted.ahead) return;
    add_meeting(of, posts ? number : number - known.counted.ahead, posts);
}

// The sends of a stream keep their order, and so do its receives. A receive comes after the send of its last byte.
void Trace::Words::add_message(const record &one, const Resolved &of, const streams::Stream &stream) {
    bool sends = one.kind == PASS && one.order == POSTED, looks = one.kind == TRIED;
    const char *chain = sends ? "sync:" : "sync:received:";
    streams::Place &place = state_of(of).place;
    u64 send = sends ? stream.next_send(place) : stream.next_receive(one, place);
    operations.push_back({"acq", "", of.thing, of.place});
    operations.push_back({"r", chain, of.thing, of.place});
    if (!looks) operations.push_back({"w", chain, of.thing, of.place});
    if (send) operations.push_back({sends ? "w" : "r", "sync:", of.thing, of.place, -1, send});
    operations.push_back({"rel", "", of.thing, of.place});
}

// Each one that comes has the order that it had.
void Trace::Words::add_chain(const record &one, const Resolved &of) {
    operations.push_back({"acq", "", of.thing, of.place});
    operations.push_back({"r", "sync:", of.thing, of.place});
    if (one.kind != TRIED) operations.push_back({"w", "sync:", of.thing, of.place});
    operations.push_back({"rel", "", of.thing, of.place});
}

// Each reader holds another lock, and a writer those of all readers. The state of a lock is written beside it if a
// try was refused: who was refused comes between.
void Trace::Words::find_section(const record &one, const Resolved &of, const LockSeen &known) {
    bool is_reader = one.kind == READER_IN || one.kind == READER_OUT;
    if (is_reader) return add_section(of, one.kind == READER_IN, known.tried, {one.thread});
    std::vector<int> &threads = section_threads;
    threads.assign(1, -1);
    bool *is_written = known.readers.empty() ? nullptr : &state_of(of).is_written;
    bool all = one.kind == TRIED ? !one.size : one.kind == WRITER || (is_written && *is_written);
    for (u16 other : known.readers) {
        if (all && other != one.thread) threads.push_back(other);
    }
    if (one.kind == TRIED) return add_states(of, threads, "r");
    if (is_written) *is_written = one.kind == WRITER;
    add_section(of, is_taken(one), known.tried, threads);
}

void Trace::Words::find_synchronization(const record &one, const Resolved &of) {
    if (one.kind == ARRIVED || one.kind == WENT_ON) return add_meeting(of, one.answer, one.kind == ARRIVED);
    const LockSeen &known = lock_of({of.thing, of.place});
    if (known.is_counted()) add_counted(one, of, known);
    else if (known.is_stream()) add_message(one, of, known.stream);
    else if (known.is_chain()) add_chain(one, of);
    else find_section(one, of, known);
}

// Most records are of the lock of the last one.
const LockSeen &Trace::Words::lock_of(const Lock &lock) {
    static const LockSeen none;
    if (!last_lock || !(last_lock->first == lock)) {
        auto found = trace.locks.find(lock);
        if (found == trace.locks.end()) return none;
        last_lock = &*found;
    }
    return last_lock->second;
}

void Trace::Words::pass_by(const record &one, const Resolved &of) {
    operations.clear();
    find_synchronization(one, of);
}

const Operations &Trace::Words::of(const Found &found) {
    const record &one = found.one;
    const Resolved &of = found.of;
    u64 number = found.number;
    operations.clear();
    if (one.kind == FENCE) {
        add_acquired(number);
        add_released(number);
    }
    if (is_use(one) && trace.lives.has_reads(of.thing, of.place)) add_use(of);
    if (one.kind == FORK) operations.push_back({"fork", "T", objects::NOTHING, one.at});
    else if (one.kind == JOIN) operations.push_back({"join", "T", objects::NOTHING, one.at});
    else if (of.there() && is_access(one)) find_accesses(found);
    else if (of.there() && is_synchronization(one.kind)) find_synchronization(one, of);
    return operations;
}

}
