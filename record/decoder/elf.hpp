// The symbols of a program or library: its variables and its functions, by their places in the file's own addresses.
#pragma once
#include <cstdint>
#include <string>
#include <vector>

namespace elf {

// How C++ writes a name of the linker's.
std::string demangled(const std::string &name);

struct Symbol {
    uint64_t start, size;
    std::string name;
};

// Whether a program or library was compiled with the hooks: it calls or defines one of their functions.
bool has_hooks(const std::string &path);
// The names of the objects without hooks that record/cc linked into a program or library.
std::vector<std::string> bare_objects(const std::string &path);

// How many bytes the variables take that a program has for each thread, up to where the thread's pointer leads, and
// where the file has what they begin with. 0 if it has none, or if it is not for x86-64.
struct OwnVariables {
    uint64_t size, start;
};
OwnVariables own_variables(const std::string &path);

// Of several names of one place the first in byte order counts.
struct Symbols {
    std::vector<Symbol> variables, functions;
    explicit Symbols(const std::string &path);
    // The entry that a place lies in, or none.
    static const Symbol *at(const std::vector<Symbol> &table, uint64_t place);
};

}
