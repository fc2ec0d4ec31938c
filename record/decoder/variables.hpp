// Variables with a place of their own: globals, statics of files, classes and functions, by the debug information.
#pragma once
#include <cstdint>
#include <string>
#include <vector>
#include <elfutils/libdw.h>

namespace variables {

// A variable, or a piece of one that the compiler put elsewhere: `offset` is where the piece begins in it.
struct Variable {
    Dwarf_Addr start;
    uint64_t size, offset;
    Dwarf_Die die;
};

class Variables {
public:
    // The name of the bytes: the variable, and the path in it. Empty if no variable is known there. For variables
    // that each thread has, `start` is an offset in those of a thread.
    std::string name(Dwarf *debug, Dwarf_Addr start, uint64_t size, bool of_thread);

private:
    static const Variable *at(const std::vector<Variable> &all, Dwarf_Addr start);
    void read(Dwarf *debug);
    void add(Dwarf_Die &die);
    bool add_of_thread(Dwarf_Die &die, Dwarf_Attribute &location, const Dwarf_Op *operations, size_t count);
    // Sorted by their starts: those of the program, and those that each thread has.
    std::vector<Variable> all, of_threads;
    bool were_read = false;
};

}
