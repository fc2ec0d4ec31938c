// The raw file of a run, mapped: what runtime/format.h says.
#pragma once
#include <algorithm>
#include <cstddef>
#include <memory>
#include <stdexcept>
#include <string>
#include <utility>
#include <vector>
#include "../runtime/reading.h"

namespace raw {

struct Wrong : std::runtime_error {
    using std::runtime_error::runtime_error;
};

class File {
public:
    explicit File(const std::string &path);
    const head &top() const { return *reinterpret_cast<const head *>(bytes); }
    // The machine words of the records.
    size_t words() const { return used; }
    const u64 *first_word() const { return first; }
    // How many records had no room, or more: each word that the file lacks may be one.
    u64 lost() const { return top().lost + (top().used > used ? top().used - used : 0); }
    // Gives back the memory of words that have gone by: the file has them.
    void forget(u64 from, u64 to) const;
    // The node of a number; a number without a node is that of no call.
    const node &call(u32 number) const;
    size_t calls() const { return nodes; }

    const std::string &path() const { return name; }

private:
    std::string name;
    const char *bytes;
    size_t used, nodes;
    const u64 *first;
    const node *first_node;
};

// Where the records of a piece begin, and what the reader knows there: the thread, its tick, and the forms.
struct Start {
    u64 word = 0, tick = 0;
    u16 thread = 0;
    std::vector<std::pair<u32, record>> forms;
};

// Whether it is a read or write of memory that is no atomic one, as nearly all records are.
inline bool is_plain(const record &one) { return !one.of && (one.kind == READ || one.kind == WRITE); }

// Goes over the records that happened, in their order: all, or those of a piece.
class Records {
public:
    explicit Records(const File &file);
    Records(const File &file, const Start &start, u64 end);
    // From now on `next` is false before the first record that begins at this word or later.
    void stop_at(u64 word) { stop = word; }
    // Where the next record begins.
    Start start() const;
    // Whether there is one more record; `one` and `number` are of it then.
    bool next() { return has_form() || next_other(); }
    // The same without plain accesses, which are passed by.
    bool next_other_than_plain() {
        for (pass_plain(); next(); pass_plain())
            if (!is_plain(*now)) return true;
        return false;
    }
    const record &one() const { return *now; }
    // Its number rises from record to record: it is the one of its first word.
    u64 number() const { return reader->place; }

private:
    static constexpr u64 AT_ONCE = 1 << 18;
    // Reads a record of a slot's form, as nearly all are. It is made in the form itself: what differs from record to
    // record is written anew each time. False for any other word.
    bool has_form() {
        struct reader &all = *reader;
        if (all.next >= stop || all.next >= passed + AT_ONCE) return false;
        u64 word = all.words[all.next];
        record &form = all.form[word % SLOTS];
        if (!form.done || form.kind == VOID) return false;
        all.place = all.next++;
        form.at = word / SLOTS;
        form.thread = all.thread;
        form.answer = form.kind == FRAME ? form.at : 0;
        form.pos = form.kind == FRAME ? 0 : ++all.tick << 16;
        now = &form;
        return true;
    }
    bool next_other();
    // Passes plain accesses of slots' forms.
    void pass_plain() {
        struct reader &all = *reader;
        u64 end = std::min(stop, passed + AT_ONCE), from = all.next;
        while (all.next < end) {
            const record &form = all.form[all.words[all.next] % SLOTS];
            if (!form.done || !is_plain(form)) break;
            all.next++;
        }
        all.tick += all.next - from;
        if (all.next > from) all.place = all.next - 1;
    }
    const File &file;
    std::unique_ptr<struct reader, void (*)(void *)> reader;
    const record *now = nullptr;
    u64 passed = 0, stop;
};

}
