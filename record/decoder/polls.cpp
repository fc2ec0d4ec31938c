#include "polls.hpp"
#include <algorithm>

namespace polls {

// A look is an atomic read, or a try of a lock that was refused.
static bool may_look(const record &one) { return !one.of && (one.kind == ATOMIC_READ || one.kind == TRIED); }

// A look takes locks, reads, and lets the locks go. A read of several parts may be no such one: a plain write of one
// part may come between.
static bool is_look(const record &one, const Operations &operations) {
    if (!may_look(one) || operations.empty()) return false;
    size_t reads = 0;
    for (const Operation &each : operations) {
        reads += each.is("r");
        if (each.is("w")) return false;
    }
    return 3 * reads == operations.size() && operations.front().is("acq") && (reads == 1 || one.kind == TRIED);
}

static bool are_same(const Operations &some, const Operations &others) {
    auto is_same = [](const Operation &a, const Operation &b) { return a.is(b.word) && a.has_name_of(b); };
    return std::equal(some.begin(), some.end(), others.begin(), others.end(), is_same);
}

void Polls::see(const record &one) {
    if (any || !may_look(one)) return;
    Before &last = before[one.thread];
    any = last.at == one.at && last.pc == one.pc;
    last = {one.at, one.pc};
}

// The looks at what is written here see another value from now on.
void Polls::end_at(const Operation &write) {
    auto is_written = [&](const Operation &one) { return one.is("r") && one.has_name_of(write); };
    auto is_over = [&](u16 thread) {
        Looks &its = looks[thread];
        if (its.are_there) its.are_there = std::none_of(its.operations.begin(), its.operations.end(), is_written);
        its.are_listed = its.are_there;
        return !its.are_there;
    };
    looking.erase(std::remove_if(looking.begin(), looking.end(), is_over), looking.end());
}

void Polls::begin(size_t number, const record &one, const Operations &operations) {
    Looks &mine = looks[one.thread];
    mine.place = {one.pc, one.stack};
    mine.operations = operations;
    mine.first = mine.last = number;
    mine.are_there = true;
    if (!mine.are_listed) looking.push_back(one.thread);
    mine.are_listed = true;
}

// The look before was not the last one.
void Polls::go_on(size_t number, Looks &mine) {
    if (mine.last != mine.first) {
        if (left_out.size() <= number) left_out.resize(number + number / 2 + 1);
        left_out[mine.last] = true;
    }
    mine.last = number;
}

void Polls::see_event(size_t number, const record &one, const Operations &operations) {
    for (const Operation &each : operations)
        if (each.is("w")) end_at(each);
    if (operations.empty()) return;
    Looks &mine = looks[one.thread];
    bool looks_now = is_look(one, operations), is_same_place = mine.place == places::Key{one.pc, one.stack};
    if (looks_now && mine.are_there && is_same_place && are_same(mine.operations, operations))
        return go_on(number, mine);
    mine.are_there = false;
    if (looks_now) begin(number, one, operations);
}

}
