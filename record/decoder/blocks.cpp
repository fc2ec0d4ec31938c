#include "blocks.hpp"
#include <cstring>
#include <dwarf.h>
#include "outline.hpp"
#include "text.hpp"
#include "types.hpp"

namespace blocks {

namespace {

constexpr int MOST_DEPTH = 64;

// What a pointer leads to, as it is written.
std::optional<Dwarf_Die> pointed_to(Dwarf_Die holder) {
    std::optional<Dwarf_Die> pointer = types::type_of(holder);
    if (!pointer || dwarf_tag(&*pointer) != DW_TAG_pointer_type) return std::nullopt;
    return types::referred(*pointer, DW_AT_type);
}

// A block is of one object, or of several after `new T[n]` and in C. A block of a `sizeof` may have more at its end. If
// the size of a number is only added, as in `size + 2 * sizeof(int)`, it is that of a part.
bool fits(const guesses::Guess &guess, Dwarf_Die type, uint64_t size) {
    std::optional<Dwarf_Die> object = types::object_type(type);
    uint64_t each = object ? types::size_of(*object) : 0;
    if (each < 2 || (guess.is_sum && dwarf_tag(&*object) == DW_TAG_base_type)) return false;
    if (types::has_open_end(*object)) return each <= size;
    if (guess.from == guesses::Guess::SIZE) return each <= size;
    if (guess.from == guesses::Guess::NEW && !guess.is_array) return each == size;
    return size && size % each == 0;
}

// A variable or parameter of a function, also in its blocks.
std::optional<Dwarf_Die> local(Dwarf_Die entry, const std::string &name, int depth) {
    Dwarf_Die child;
    for (int answer = depth < MOST_DEPTH ? dwarf_child(&entry, &child) : 1; answer == 0;
         answer = dwarf_siblingof(&child, &child)) {
        int tag = dwarf_tag(&child);
        const char *own = dwarf_diename(&child);
        if ((tag == DW_TAG_variable || tag == DW_TAG_formal_parameter) && own && name == own) return child;
        if (tag != DW_TAG_lexical_block) continue;
        if (std::optional<Dwarf_Die> found = local(child, name, depth + 1)) return found;
    }
    return std::nullopt;
}

}

std::optional<Dwarf_Die> constructed(Dwarf_Die function, uint64_t size) {
    Dwarf_Die declared = types::declared(function);
    std::vector<Dwarf_Die> scopes = outline::scopes_of(declared);
    const char *name = dwarf_diename(&declared), *around = scopes.empty() ? nullptr : dwarf_diename(&scopes[0]);
    if (!name || !around || !types::is_class(scopes[0])) return std::nullopt;
    bool is_its = text::without_template(name) == text::without_template(around);
    return is_its && types::size_of(scopes[0]) == size ? std::optional(scopes[0]) : std::nullopt;
}

std::optional<Dwarf_Die> made_unique(Dwarf_Die function) {
    Dwarf_Die declared = types::declared(function);
    const char *name = dwarf_diename(&declared);
    if (!name || strncmp(name, "make_unique<", 12) != 0) return std::nullopt;
    std::optional<Dwarf_Die> parameter = types::parameter_of(declared);
    if (!parameter) parameter = types::parameter_of(function);
    std::optional<Dwarf_Die> type = parameter ? types::type_of(*parameter) : std::nullopt;
    bool is_array = type && dwarf_tag(&*type) == DW_TAG_array_type;
    return is_array ? types::referred(*type, DW_AT_type) : parameter;
}

void Names::read(Dwarf_Die entry, int depth) {
    Dwarf_Die child;
    for (int answer = depth < MOST_DEPTH ? dwarf_child(&entry, &child) : 1; answer == 0;
         answer = dwarf_siblingof(&child, &child)) {
        int tag = dwarf_tag(&child);
        const char *name = dwarf_diename(&child);
        bool is_class = types::is_class(child);
        if (is_class || tag == DW_TAG_namespace) read(child, depth + 1);
        if (dwarf_hasattr(&child, DW_AT_declaration)) continue;
        if (is_class) classes.push_back(child);
        if (!name) continue;
        if (is_class || tag == DW_TAG_typedef || tag == DW_TAG_base_type || tag == DW_TAG_enumeration_type)
            types[text::without_template(name)].push_back(child);
        else if (tag == DW_TAG_variable) variables[name].push_back(child);
    }
}

// The one type that members of this name point to; nothing if there are several.
std::optional<Dwarf_Die> Names::member(const std::string &name) const {
    std::optional<Dwarf_Die> found;
    for (Dwarf_Die type : classes) {
        Dwarf_Die child;
        for (int answer = dwarf_child(&type, &child); answer == 0; answer = dwarf_siblingof(&child, &child)) {
            const char *own = dwarf_diename(&child);
            if (dwarf_tag(&child) != DW_TAG_member || !own || name != own) continue;
            std::optional<Dwarf_Die> to = pointed_to(child);
            if (!to || (found && types::label_of(*found) != types::label_of(*to))) return std::nullopt;
            found = to;
        }
    }
    return found;
}

std::optional<Dwarf_Die> Names::pointed_by(const guesses::Guess &guess, Dwarf_Die function) {
    if (guess.is_member) return member(guess.name);
    if (std::optional<Dwarf_Die> found = local(function, guess.name, 0)) return pointed_to(*found);
    auto global = variables.find(guess.name);
    if (global != variables.end() && global->second.size() == 1) return pointed_to(global->second[0]);
    return global == variables.end() ? member(guess.name) : std::nullopt;
}

bool Names::passes_on(const guesses::Guess &guess, Dwarf_Die function) {
    if (guess.passes_on || guess.from != guesses::Guess::POINTER) return guess.passes_on;
    std::optional<Dwarf_Die> type = pointed_by(guess, function),
                             object = type ? types::object_type(*type) : std::nullopt;
    return !object || types::size_of(*object) < 2;
}

std::optional<Dwarf_Die> Names::type_of(const guesses::Guess &guess, Dwarf_Die function, uint64_t size) {
    if (guess.from == guesses::Guess::NONE) return std::nullopt;
    if (!was_read) read(top, 0);
    was_read = true;
    if (guess.from == guesses::Guess::POINTER) {
        std::optional<Dwarf_Die> type = pointed_by(guess, function);
        return type && fits(guess, *type, size) ? type : std::nullopt;
    }
    std::optional<Dwarf_Die> found;
    for (const Dwarf_Die &type : types[guess.name]) {
        if (!fits(guess, type, size)) continue;
        if (found && types::label_of(*found) != types::label_of(type)) return std::nullopt;
        found = type;
    }
    return found;
}

}
