// Which value each event of the trace read or wrote.
#include "values.hpp"
#include "words.hpp"
#include <algorithm>

namespace values {

// How many words begin with a word of this kind.
static u64 length_of(u64 kind) { return kind == LONG ? LONG_WORDS : kind == TURN || kind == VALUE ? 2 : 1; }

Values::Values(const raw::File &file) {
    const u64 *words = file.first_word();
    for (u64 at = 0; at + 1 < file.words(); at += length_of(words[at] % SLOTS))
        if (words[at] % SLOTS == VALUE && words[at] / SLOTS) all.emplace_back(words[at] / SLOTS, words[at + 1]);
    std::sort(all.begin(), all.end());
}

std::optional<u64> Values::of(u64 record, bool is_write) const {
    u64 key = record << 1 | is_write;
    auto found = std::lower_bound(all.begin(), all.end(), std::pair<u64, u64>{key, 0});
    if (found == all.end() || found->first != key) return std::nullopt;
    return found->second;
}

}

namespace trace {

// The value of an operation, as a text. A pointer into a block or stack is the number of that and the place in it:
// addresses are given out again, and another run has others.
std::string Trace::value_of(const values::Values &known, const Found &found, const Operation &operation) {
    bool is_access = operation.is("r") || operation.is("w");
    if (!is_access || *operation.before || !(is_plain(found.one) || is_atomic(found.one.kind))) return "";
    std::optional<u64> whole = known.of(found.number, operation.is("w"));
    u64 from = operation.place - found.of.place, size = size_at(operation.thing, operation.place);
    if (!whole || operation.thing != found.of.thing || from + size > found.one.size) return "";
    if (size == sizeof(u64)) {
        objects::Where block = things.living_with(*whole);
        if (block.thing != objects::NOTHING)
            return "b" + std::to_string(block.thing) + "+" + std::to_string(block.place);
        return std::to_string(*whole);
    }
    return std::to_string(*whole >> 8 * from & ((1ull << 8 * size) - 1));
}

// All records go by once more, and become the same events.
void Trace::write_values() {
    FILE *to = fopen(options.values.c_str(), "w");
    if (!to) throw raw::Wrong(options.values + ": can't be written");
    values::Values known(file);
    Words words(*this);
    u64 event = 0;
    things.restart();
    for (raw::Records records(file); event < counts.written && records.next();) {
        const record &one = records.one();
        if (is_plain(one) && !written_pages.may_have(one.at, one.size)) continue;
        Found found = found_of(records.number(), one, of_record(things, one), spans);
        const Operations &operations = words.of(found);
        if (polls.is_left_out(found.number)) continue;
        for (const Operation &operation : operations) {
            std::string value = event < counts.written ? value_of(known, found, operation) : "";
            if (!value.empty()) fprintf(to, "%llu %s\n", static_cast<unsigned long long>(event), value.c_str());
            event++;
        }
    }
    if (fclose(to)) throw raw::Wrong(options.values + ": can't be written");
}

}
