#include "lines.hpp"

namespace lines {

std::string &Lines::text_of(const record &one, const Operation &operation) {
    u64 mixed = (one.pc ^ static_cast<u64>(one.stack) << 40 ^ operation.place << 20 ^ operation.thing) + one.thread;
    Known &found = known[(mixed * 0x9e3779b97f4a7c15ull >> 48) % CACHE];
    places::Key at{one.pc, one.stack};
    bool is_of_operation = found.place == operation.place && found.word == operation.word &&
        found.before == operation.before && found.thing == operation.thing && found.of_thread == operation.thread;
    if (is_of_operation && found.at == at && found.thread == one.thread && found.kind == one.kind) return found.text;
    found.at = at;
    found.place = operation.place;
    found.word = operation.word;
    found.before = operation.before;
    found.thing = operation.thing;
    found.of_thread = operation.thread;
    found.thread = one.thread;
    found.kind = one.kind;
    found.text.clear();
    return found.text;
}

}
