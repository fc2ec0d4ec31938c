// The type of a block that C or `new` allocates: by the constructor that writes it first, or by the source.
#pragma once
#include <optional>
#include <string>
#include <unordered_map>
#include <vector>
#include <elfutils/libdw.h>
#include "guesses.hpp"

namespace blocks {

// The class of a constructor whose objects have this size.
std::optional<Dwarf_Die> constructed(Dwarf_Die function, uint64_t size);
// The type that `std::make_unique` makes, of whose code this function is.
std::optional<Dwarf_Die> made_unique(Dwarf_Die function);

// The types and variables of a unit by their names. It is read when a name is looked up.
class Names {
public:
    explicit Names(const Dwarf_Die &top) : top(top) {}
    // The type that a guess means for a block of this size, in a function.
    std::optional<Dwarf_Die> type_of(const guesses::Guess &guess, Dwarf_Die function, uint64_t size);
    // Whether a line only passes the block on, as memory of no type: its caller knows more.
    bool passes_on(const guesses::Guess &guess, Dwarf_Die function);

private:
    using Table = std::unordered_map<std::string, std::vector<Dwarf_Die>>;
    void read(Dwarf_Die entry, int depth);
    std::optional<Dwarf_Die> pointed_by(const guesses::Guess &guess, Dwarf_Die function);
    std::optional<Dwarf_Die> member(const std::string &name) const;
    Dwarf_Die top;
    bool was_read = false;
    Table types, variables;
    std::vector<Dwarf_Die> classes;
};

}
