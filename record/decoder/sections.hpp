// The bytes of sections of debug information, and how long their parts are.
#pragma once
#include <string>
#include <elfutils/libdw.h>
#include "bytes.hpp"

namespace sections {

// The bytes of a section: that of this name, such as `debug_line`. None if the file has no such section.
bytes::Reader section(Dwarf *debug, const std::string &name);
// The bytes of the section of units that an entry is in, from the entry on. `ending` gets the end of the section's name,
// which others of the unit have too: `.dwo`, or nothing.
bytes::Reader from_entry(const Dwarf_Die &die, std::string &ending);

// How many bytes numbers have in a unit or table.
struct Sizes {
    size_t address, offset;
    int version;
};
// Goes over the value of an attribute. False if the form is not known.
bool skip(bytes::Reader &reader, unsigned form, const Sizes &sizes);
// How many bytes all values of a form have; -1 if they have different numbers of bytes.
int fixed_size(unsigned form, const Sizes &sizes);

}
