// Members of types: the path to the bytes of a variable, such as `.jobs[3].next`.
#pragma once
#include <cstdint>
#include <optional>
#include <string>
#include <vector>
#include <dwarf.h>
#include <elfutils/libdw.h>

namespace types {

// The entry that an attribute of an entry refers to.
std::optional<Dwarf_Die> referred(Dwarf_Die die, unsigned attribute);
// The type of a variable, member or type, without names for other types, `const` and the like.
std::optional<Dwarf_Die> type_of(Dwarf_Die die);
bool is_class(Dwarf_Die die);
// The type itself, or that of a variable, member or parameter, without names for other types.
std::optional<Dwarf_Die> object_type(Dwarf_Die die);
// How many bytes a type has; 0 if that is not known.
uint64_t size_of(Dwarf_Die type);
// A number in an attribute, also of the entry that this one is a copy of; nothing if it has none.
std::optional<uint64_t> number_of(Dwarf_Die die, unsigned attribute);
// The entry that has the name of this one, in its scope: that of a member is in its class.
Dwarf_Die declared(Dwarf_Die die);
// The first parameter of a template that is a type.
std::optional<Dwarf_Die> parameter_of(Dwarf_Die type);
// Whether the last member of a class is an array without a length: a block has one object, and the array to its end.
bool has_open_end(Dwarf_Die type);
// What a type is called, or that of a variable, without the arguments of templates. Empty if it has no name.
std::string label_of(Dwarf_Die die);
// The path of the innermost member of a variable or type that has all the bytes, and the offset in it if it is not
// 0. A lock or another object of the library that orders threads has no members.
std::string path_in(Dwarf_Die variable, uint64_t offset, uint64_t size);

}
