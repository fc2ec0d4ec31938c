// Lines and functions of code by its debug information, which elfutils' library libdw reads.
#pragma once
#include <cstdint>
#include <memory>
#include <optional>
#include <set>
#include <string>
#include <unordered_map>
#include <utility>
#include <vector>
#include <dwarf.h>
#include <elfutils/libdw.h>
#include "blocks.hpp"
#include "locals.hpp"
#include "variables.hpp"

namespace dwarf {

// A place in the code: the function, the path, the line, and the entry of the function.
struct Frame {
    std::string function, path;
    int line;
    Dwarf_Die die{};
};

// Code of a function, or of one that was put in its place where it was called: there at that line of that file. What is
// inside a function is read when a place in it is looked up.
struct Body {
    Dwarf_Die die;
    Ranges ranges;
    uint64_t file = 0, line = 0;
    std::vector<Body> inside;
    bool was_read = false;
};

// A range of code, and the number of the function or unit that has it.
struct Start {
    Dwarf_Addr start, end;
    size_t number;
};

// A unit of compilation. Its functions are read when a place in its code is looked up.
class Unit {
public:
    Unit(const Dwarf_Die &die, const Dwarf_Die &split);
    std::vector<std::string> files() const;
    // The innermost frame first. What the compiler gave no line is left out.
    std::vector<Frame> frames(Dwarf_Addr place);
    // The parameter of the allocator of C++ whose code is at a place: its type is what it allocates.
    std::optional<Dwarf_Die> allocated(Dwarf_Addr place);
    // The type of what std::make_unique makes, if the place is in its code.
    std::optional<Dwarf_Die> made_unique(Dwarf_Addr place);
    // The class of the outermost constructor that a place is in and the other is not, if its objects have this size.
    std::optional<Dwarf_Die> constructed(Dwarf_Addr place, uint64_t size, Dwarf_Addr outside);
    // The type that the source names for a block of `size` bytes. Whether the caller may know more.
    std::optional<Dwarf_Die> guessed(Dwarf_Addr place, uint64_t size, bool &passes_on);
    // The name of `size` bytes at an address of a frame of the function at a place.
    locals::Name local_name(Dwarf_Addr place, const locals::Frame &frame, uint64_t at, uint64_t size,
                            const locals::Uses &uses);
    mutable Dwarf_Die die;

private:
    void read();
    std::string whole(const char *path) const;
    Body *function_at(Dwarf_Addr place);
    std::vector<const Body *> bodies_at(Dwarf_Addr place);
    Dwarf_Line *row_at(Dwarf_Addr place, const std::vector<const Body *> &chain);
    Dwarf_Die top;
    // Where it was compiled, and the folder in which its own paths begin. That is empty for a crate of Rust: its paths
    // from there, as src/lib.rs, are those that its programmer knows.
    std::string compiled_in, folder;
    blocks::Names known_types;
    bool was_read = false;
    // The functions, and where their code begins and ends, by its start.
    std::vector<Body> bodies;
    std::vector<Start> starts;
    std::vector<std::string> paths;
    // The variables of a function, by the place of its entry in memory.
    std::unordered_map<const void *, std::unique_ptr<locals::Locals>> locals_of;
};

// The debug information of a file.
class Lines {
public:
    explicit Lines(const std::string &path);
    bool none() const { return units.empty(); }
    std::set<std::string> paths() const;
    std::vector<Frame> frames(Dwarf_Addr place);
    std::optional<Dwarf_Die> allocated(Dwarf_Addr place);
    std::optional<Dwarf_Die> made_unique(Dwarf_Addr place);
    std::optional<Dwarf_Die> constructed(Dwarf_Addr place, uint64_t size, Dwarf_Addr outside);
    std::optional<Dwarf_Die> guessed(Dwarf_Addr place, uint64_t size, bool &passes_on);
    // The name of `size` bytes of a variable. Empty if it is not known.
    std::string variable_name(Dwarf_Addr start, uint64_t size) { return variables.name(debug, start, size, false); }
    // The same of a variable that each thread has, from an offset on in those of a thread.
    std::string thread_variable_name(Dwarf_Addr offset, uint64_t size) {
        return variables.name(debug, offset, size, true);
    }
    locals::Name local_name(Dwarf_Addr place, const locals::Frame &frame, uint64_t at, uint64_t size,
                            const locals::Uses &uses);

private:
    Dwarf *debug = nullptr;
    variables::Variables variables;
    Unit *unit_at(Dwarf_Addr place);
    std::vector<std::unique_ptr<Unit>> units;
    std::vector<Start> starts;
};

}
