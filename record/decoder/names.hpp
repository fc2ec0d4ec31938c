// The names of variables and locks in the trace. A name is chosen once for each place of a thing, and no two places
// have one name.
#pragma once
#include <string>
#include <unordered_map>
#include "objects.hpp"

namespace names {

struct Key {
    objects::Thing thing;
    u64 place;
    bool operator==(const Key &other) const { return thing == other.thing && place == other.place; }
};
struct KeyHash {
    size_t operator()(const Key &key) const {
        return (key.thing * 0x9e3779b97f4a7c15ull) ^ (key.place * 0xc2b2ae3d27d4eb4full);
    }
};

class Names {
public:
    // With `raw`, a name has the symbol, block or stack, and an offset in bytes.
    Names(objects::Objects &things, bool raw) : things(things), raw(raw) {}
    // The name of `size` bytes at a place. It is that of the first call for this place.
    const std::string &of(objects::Thing thing, u64 place, u64 size);

    // The name of a place; nothing if it has none yet.
    const std::string *given(const Key &key) const {
        auto found = known.find(key);
        return found == known.end() ? nullptr : &found->second;
    }

private:
    std::string apart(const std::string &name, const Key &key);
    objects::Objects &things;
    bool raw;
    std::unordered_map<Key, std::string, KeyHash> known;
    std::unordered_map<std::string, Key> taken;
};

}
