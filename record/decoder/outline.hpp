// The entries of a unit in their order, read from its bytes. libdw looks up each entry on the way, and is slow.
#pragma once
#include <cstdint>
#include <vector>
#include <elfutils/libdw.h>

namespace outline {

// The variables of a unit that have an address or an offset in the variables of a thread, also those of functions.
std::vector<Dwarf_Die> variables_of(const Dwarf_Die &unit);
// The functions of a unit that have code, each after those inside it.
const std::vector<Dwarf_Die> &functions_of(const Dwarf_Die &unit);
// The entries around one, the innermost first and the unit last. The outline of the unit is kept.
std::vector<Dwarf_Die> scopes_of(const Dwarf_Die &die);

}
