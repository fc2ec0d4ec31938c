// The sources that tables of lines name, read from the heads of the tables: libdw reads all lines on the way.
#pragma once
#include <optional>
#include <string>
#include <vector>
#include <elfutils/libdw.h>

namespace sources {

// The paths of the sources of a unit as dwarf_filesrc gives them, by their numbers. Nothing if its table is damaged or
// of a version that is not known.
std::optional<std::vector<std::string>> paths_of(const Dwarf_Die &unit);

}
