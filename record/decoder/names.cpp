#include "names.hpp"
#include "text.hpp"

namespace names {

// If another place has the name, an offset is added, and a number if the offset is the same.
std::string Names::apart(const std::string &name, const Key &key) {
    std::string found = text::fitting(name);
    bool is_frame = things.activation_of(key.thing) != nullptr;
    auto offset = static_cast<long long>(key.place - (is_frame ? objects::BEFORE_END : 0));
    for (u64 number = 0; !taken.emplace(found, key).second; number++)
        found = text::fitting(name + (number ? "~" + std::to_string(number) : "@" + std::to_string(offset)));
    return found;
}

const std::string &Names::of(objects::Thing thing, u64 place, u64 size) {
    Key key{thing, place};
    auto found = known.find(key);
    if (found != known.end()) return found->second;
    std::string name = raw ? "" : things.source_name(thing, place, size);
    if (name.empty()) name = things.name(thing, place);
    return known[key] = apart(name, key);
}

}
