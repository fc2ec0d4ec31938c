// Where a place of code is, in words, and which variable lies at an address.
#pragma once
#include <map>
#include <memory>
#include <string>
#include <unordered_map>
#include <vector>
#include "dwarf.hpp"
#include "elf.hpp"
#include "raw.hpp"

namespace places {

constexpr size_t MOST_FRAMES = 8;

struct Module {
    u64 base, end;
    std::string path;
    bool is_program, is_hooked;
    std::unique_ptr<elf::Symbols> symbols;
    std::unique_ptr<dwarf::Lines> lines;
};

struct Frame {
    std::string function, place;
    bool in_library;
    std::string path;
};
using Frames = std::vector<Frame>;

// A variable of a program or library: where it starts, and its name.
struct Variable {
    u64 start;
    std::string name;
};

struct Key {
    u64 pc;
    u32 call;
    bool operator==(const Key &other) const { return pc == other.pc && call == other.call; }
};
struct KeyHash {
    size_t operator()(const Key &key) const {
        return (key.pc ^ static_cast<u64>(key.call) << 40) * 0x9e3779b97f4a7c15ull >> 7;
    }
};

class Modules {
public:
    explicit Modules(const raw::File &file);
    // The variable at an address: none if its name is empty.
    Variable variable_at(u64 address);
    // The name of `size` bytes at a place of a variable as the source has it. Empty if it is not known.
    std::string variable_name(u64 start, u64 place, u64 size);
    // How many bytes the variables take that the program has for each thread, and the name of some of the bytes.
    u64 own_variables();
    std::string own_variable_name(u64 place, u64 size);
    // The function that is entered at a place.
    std::string function_at(u64 body);
    // The name of `size` bytes at an address of a frame of that function, whose uses have addresses of code.
    locals::Name local_name(u64 body, const locals::Frame &frame, u64 at, u64 size, locals::Uses uses);
    // The parameter of the allocator of C++ that allocated at a place in a call: its type is that of the block.
    std::optional<Dwarf_Die> allocated(u64 pc, u32 call);
    // The type of a block of `size` bytes that was allocated so: what std::make_unique makes, or the class of the
    // constructor that wrote it first.
    std::optional<Dwarf_Die> constructed(const Key &allocated, const Key &written, u64 size);
    // The type that the source names.
    std::optional<Dwarf_Die> guessed(const Key &allocated, u64 size);
    // The first place of a location; `?` where nothing is known.
    const std::string &place(u64 pc, u32 call);
    // Whether the first place of a location is in one of the files, which are ends of paths.
    bool is_in(u64 pc, u32 call, const std::vector<std::string> &files);
    // A location with at most `most` frames. `inside` is `free`, `try` or nothing: what of the C library it is in. A
    // is written also without a frame.
    std::string location(u64 pc, u32 call, size_t most, const std::string &inside);
    // The libraries without hooks, except those of C and C++ and those whose names begin as a trusted one.
    std::vector<std::string> unknown_libraries(const std::vector<std::string> &trusted) const;
    // The objects without hooks that record/cc linked.
    std::vector<std::string> bare_objects() const;
    // The frames of a place after a call, in modules with hooks, the innermost first.
    const Frames &frames(u64 address);

private:
    Module *of(u64 address);
    Module *program();
    elf::Symbols &symbols_of(Module &module);
    dwarf::Lines &lines_of(Module &module);
    std::string short_path(const std::string &path);
    std::string symbol_function(Module &module, u64 start, const std::string &name);
    Frames found_frames(u64 address);
    Frames without_lines(u64 address);
    bool is_bare(u64 address);
    Frames stack(u64 pc, u32 call);
    const Frames &ordered_stack(u64 pc, u32 call);
    const raw::File &file;
    std::vector<Module> modules;
    bool paths_known = false;
    std::optional<elf::OwnVariables> own;
    std::unordered_map<u64, std::string> known_functions;
    std::map<std::string, std::string> shorter;
    std::unordered_map<u64, Frames> known_frames;
    std::unordered_map<Key, Frames, KeyHash> known_stacks;
};

}
