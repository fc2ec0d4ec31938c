// Variables in the frame of a function, by the debug information.
#pragma once
#include <cstdint>
#include <string>
#include <utility>
#include <vector>
#include <dwarf.h>
#include <elfutils/libdw.h>

namespace dwarf {

using Ranges = std::vector<std::pair<Dwarf_Addr, Dwarf_Addr>>;
// The code of an entry, without what the linker dropped.
Ranges ranges_of(Dwarf_Die &die);
bool holds(const Ranges &ranges, Dwarf_Addr place);

}

namespace locals {

// Where an activation of a function has its frame: the end is above the return address.
struct Frame {
    uint64_t start, end;
};

// What the place of a variable is relative to. A frame pointer is below the return address and the caller's frame
// pointer.
enum class From { END, POINTER, START };

struct Local {
    From from;
    int64_t offset;
    uint64_t size;
    Dwarf_Die die;
    // The code in which the variable is known, how many scopes are around it, and the inlined function that it is of.
    dwarf::Ranges scope;
    int depth;
    std::string inlined;
    // Whether it has this place only while the function is in that code.
    bool is_for_a_while;
};

// A name of bytes in a frame: the variable with the path in it, and the inlined function that it is of.
struct Name {
    std::string inlined, variable;
};

// Places in the function where its bytes were used, and how often.
using Uses = std::vector<std::pair<Dwarf_Addr, uint64_t>>;

class Locals {
public:
    // Finds the variables of a function. `name_of` gives the name of an inlined one.
    Locals(Dwarf_Die function, std::string (*name_of)(Dwarf_Die));
    // The name of `size` bytes at an address of a frame. Empty if no variable is known there, or if the uses don't show
    // which of several it is.
    Name name(const Frame &frame, uint64_t at, uint64_t size, const Uses &uses) const;

private:
    struct Around {
        dwarf::Ranges scope;
        int depth;
        std::string inlined;
    };
    void walk(Dwarf_Die entry, const Around &around);
    void add(Dwarf_Die &die, const Around &around);
    void add_at(Dwarf_Die &die, const Around &around, const Dwarf_Op &operation, const dwarf::Ranges &when);
    const Local *chosen(const std::vector<const Local *> &found, const Uses &uses) const;
    std::string (*name_of)(Dwarf_Die);
    From base = From::END;
    bool has_base = false;
    std::vector<Local> all;
};

}
