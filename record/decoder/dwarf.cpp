#include "dwarf.hpp"
#include "outline.hpp"
#include "sources.hpp"
#include "text.hpp"
#include "types.hpp"
#include <algorithm>
#include <cstring>
#include <fcntl.h>
#include <limits>
#include <tuple>

namespace dwarf {

namespace {

// Scopes in each other beyond this number are not looked into.
constexpr int MOST_DEPTH = 200;
// Rows without a line, one after another, beyond this number are not looked into.
constexpr int MOST_ROWS = 64;

uint64_t number_in(Dwarf_Die &die, unsigned name) {
    Dwarf_Attribute attribute;
    Dwarf_Word value = 0;
    return dwarf_attr(&die, name, &attribute) && dwarf_formudata(&attribute, &value) == 0 ? value : 0;
}

bool has_name(Dwarf_Die &die) {
    Dwarf_Attribute attribute;
    return dwarf_attr(&die, DW_AT_name, &attribute) != nullptr;
}

std::string name_in(Dwarf_Die &die) {
    const char *name = dwarf_diename(&die);
    return name ? text::without_template(name) : "";
}

// A function with the classes, namespaces and functions around it.
std::string scoped_name(Dwarf_Die &entry) {
    std::string name = name_in(entry);
    for (Dwarf_Die &scope : outline::scopes_of(entry)) {
        switch (dwarf_tag(&scope)) {
        case DW_TAG_class_type:
        case DW_TAG_structure_type:
        case DW_TAG_union_type:
        case DW_TAG_namespace:
            if (dwarf_diename(&scope)) name = name_in(scope) + "::" + name;
            break;
        case DW_TAG_subprogram:
            if (has_name(scope)) name = name_in(scope) + "::" + name;
            break;
        default: break;
        }
    }
    return name;
}

// The name of a function, which may be that of the entry that this one is a copy of.
std::string name_of(Dwarf_Die entry) {
    for (int copies = 0; copies < 8; copies++) {
        if (has_name(entry)) return scoped_name(entry);
        Dwarf_Attribute attribute;
        Dwarf_Die other;
        if (!dwarf_attr(&entry, DW_AT_abstract_origin, &attribute) &&
            !dwarf_attr(&entry, DW_AT_specification, &attribute))
            break;
        if (!dwarf_formref_die(&attribute, &other)) break;
        entry = other;
    }
    return "";
}

// Finds what was put inside a body.
void read_inside(Dwarf_Die &entry, std::vector<Body> *around, int depth) {
    if (depth > MOST_DEPTH) return;
    Dwarf_Die child;
    for (int answer = dwarf_child(&entry, &child); answer == 0; answer = dwarf_siblingof(&child, &child)) {
        int tag = dwarf_tag(&child);
        if (tag == DW_TAG_lexical_block || tag == DW_TAG_catch_block || tag == DW_TAG_try_block)
            read_inside(child, around, depth + 1);
        if (tag != DW_TAG_inlined_subroutine) continue;
        Body body{child, ranges_of(child), number_in(child, DW_AT_call_file), number_in(child, DW_AT_call_line), {},
                  true};
        if (body.ranges.empty()) continue;
        read_inside(child, &body.inside, depth + 1);
        around->push_back(std::move(body));
    }
}

void sort_starts(std::vector<Start> &starts) {
    std::sort(starts.begin(), starts.end(), [](const Start &a, const Start &b) {
        return std::tie(a.start, a.end, a.number) < std::tie(b.start, b.end, b.number);
    });
}

// The last range that begins at a place or before it, if it ends after the place.
const Start *range_at(const std::vector<Start> &starts, Dwarf_Addr place) {
    auto after = std::upper_bound(starts.begin(), starts.end(), place,
                                  [](Dwarf_Addr at, const Start &one) { return at < one.start; });
    return after == starts.begin() || place >= std::prev(after)->end ? nullptr : &*std::prev(after);
}

}

Unit::Unit(const Dwarf_Die &die, const Dwarf_Die &split) : die(die), top(split.addr ? split : die), known_types(top) {
    Dwarf_Attribute attribute;
    const char *found = dwarf_formstring(dwarf_attr(&this->die, DW_AT_comp_dir, &attribute));
    if (found) compiled_in = std::string(found) + "/";
    if (dwarf_srclang(&this->die) != DW_LANG_Rust || text::in_library(compiled_in)) folder = compiled_in;
}

// A folder of a table of lines may begin where the compiler ran: so one source would have two paths.
std::string Unit::whole(const char *path) const {
    if (!path) return "";
    return path[0] == '/' ? path : folder + path;
}

std::vector<std::string> Unit::files() const {
    std::vector<std::string> paths = sources::paths_of(die).value_or(std::vector<std::string>{});
    for (std::string &path : paths) path = whole(path.c_str());
    return paths;
}

void Unit::read() {
    was_read = true;
    for (const Dwarf_Die &function : outline::functions_of(top)) {
        Body body;
        body.die = function;
        body.ranges = ranges_of(body.die);
        for (auto &range : body.ranges) starts.push_back({range.first, range.second, bodies.size()});
        if (!body.ranges.empty()) bodies.push_back(std::move(body));
    }
    sort_starts(starts);
    paths = files();
}

// Of several functions with one code, the first in the unit.
Body *Unit::function_at(Dwarf_Addr place) {
    if (!was_read) read();
    const Start *last = range_at(starts, place), *first = last;
    if (!last) return nullptr;
    while (first != starts.data() && first[-1].start == last->start && first[-1].end == last->end) first--;
    Body &found = bodies[first->number];
    if (!found.was_read) read_inside(found.die, &found.inside, 1);
    found.was_read = true;
    return &found;
}

// The bodies that a place lies in, the innermost last.
std::vector<const Body *> Unit::bodies_at(Dwarf_Addr place) {
    std::vector<const Body *> chain;
    for (const Body *body = function_at(place); body;) {
        chain.push_back(body);
        auto found = std::find_if(body->inside.begin(), body->inside.end(),
                                  [place](const Body &inner) { return holds(inner.ranges, place); });
        body = found == body->inside.end() ? nullptr : &*found;
    }
    return chain;
}

// The row of a place in the table of lines. Code that the compiler made itself has line 0: then it is the row before it
// in its body.
Dwarf_Line *Unit::row_at(Dwarf_Addr place, const std::vector<const Body *> &chain) {
    Dwarf_Line *first = dwarf_getsrc_die(&die, place), *row = first;
    Dwarf_Addr start = 0;
    int line = 0;
    for (int steps = 0; row && !chain.empty() && steps < MOST_ROWS && dwarf_lineno(row, &line) == 0; steps++) {
        if (line > 0) return row;
        if (dwarf_lineaddr(row, &start) != 0 || !start || bodies_at(start - 1) != chain) return first;
        row = dwarf_getsrc_die(&die, start - 1);
    }
    return first;
}

std::vector<Frame> Unit::frames(Dwarf_Addr place) {
    std::vector<const Body *> chain = bodies_at(place);
    Dwarf_Line *row = row_at(place, chain);
    int line = 0;
    if (!row || dwarf_lineno(row, &line) != 0) return {};
    std::string path = whole(dwarf_linesrc(row, nullptr, nullptr));
    std::vector<Frame> frames;
    if (chain.empty()) frames.push_back({"", text::normal(path), line});
    for (auto body = chain.rbegin(); body != chain.rend(); ++body) {
        frames.push_back({name_of((*body)->die), text::normal(path), line, (*body)->die});
        path = (*body)->file < paths.size() ? paths[(*body)->file] : "";
        line = static_cast<int>((*body)->line);
    }
    frames.erase(std::remove_if(frames.begin(), frames.end(), [](const Frame &frame) { return frame.line <= 0; }),
                 frames.end());
    return frames;
}

std::optional<Dwarf_Die> Unit::allocated(Dwarf_Addr place) {
    std::vector<const Body *> chain = bodies_at(place);
    for (auto body = chain.rbegin(); body != chain.rend(); ++body) {
        Dwarf_Die function = types::declared((*body)->die);
        const char *name = dwarf_diename(&function);
        std::vector<Dwarf_Die> scopes = outline::scopes_of(function);
        if (!name || strcmp(name, "allocate") != 0 || scopes.empty()) continue;
        const char *around = dwarf_diename(&scopes[0]);
        for (const char *allocator : {"__new_allocator<", "new_allocator<", "allocator<"})
            if (around && strncmp(around, allocator, strlen(allocator)) == 0) return types::parameter_of(scopes[0]);
    }
    return std::nullopt;
}

std::optional<Dwarf_Die> Unit::made_unique(Dwarf_Addr place) {
    std::vector<const Body *> chain = bodies_at(place);
    return chain.empty() ? std::nullopt : blocks::made_unique(chain.back()->die);
}

std::optional<Dwarf_Die> Unit::constructed(Dwarf_Addr place, uint64_t size, Dwarf_Addr outside) {
    std::vector<const Body *> outer = outside ? bodies_at(outside) : std::vector<const Body *>{};
    for (const Body *body : bodies_at(place)) {
        if (std::find(outer.begin(), outer.end(), body) != outer.end()) continue;
        if (std::optional<Dwarf_Die> found = blocks::constructed(body->die, size)) return found;
    }
    return std::nullopt;
}

// What the library of C++ allocates is no pointer of the program's.
std::optional<Dwarf_Die> Unit::guessed(Dwarf_Addr place, uint64_t size, bool &passes_on) {
    passes_on = false;
    for (const Frame &frame : frames(place)) {
        if (!frame.die.addr || text::in_cxx_library(frame.path)) return std::nullopt;
        std::string path = frame.path.rfind('/', 0) == 0 ? frame.path : compiled_in + frame.path;
        guesses::Guess guess = guesses::guess_in(guesses::statement_at(path, frame.line));
        if (std::optional<Dwarf_Die> found = known_types.type_of(guess, frame.die, size)) return found;
        passes_on = known_types.passes_on(guess, frame.die);
        if (!passes_on) return std::nullopt;
    }
    return std::nullopt;
}

locals::Name Unit::local_name(Dwarf_Addr place, const locals::Frame &frame, uint64_t at, uint64_t size,
                              const locals::Uses &uses) {
    std::vector<const Body *> chain = bodies_at(place);
    if (chain.empty()) return {"", ""};
    std::unique_ptr<locals::Locals> &known = locals_of[chain[0]->die.addr];
    if (!known) known = std::make_unique<locals::Locals>(chain[0]->die, name_of);
    return known->name(frame, at, size, uses);
}

Lines::Lines(const std::string &path) {
    int file = open(path.c_str(), O_RDONLY | O_CLOEXEC);
    debug = file < 0 ? nullptr : dwarf_begin(file, DWARF_C_READ);
    Dwarf_CU *unit = nullptr;
    Dwarf_Die die{}, split{};
    while (debug && dwarf_get_units(debug, unit, &unit, nullptr, nullptr, &die, &split) == 0) {
        units.push_back(std::make_unique<Unit>(die, split));
        die = split = Dwarf_Die{};
    }
    for (size_t k = 0; k < units.size(); k++)
        for (auto &range : ranges_of(units[k]->die)) starts.push_back({range.first, range.second, k});
    sort_starts(starts);
}

std::set<std::string> Lines::paths() const {
    std::set<std::string> found;
    for (auto &unit : units)
        for (const std::string &path : unit->files())
            if (!path.empty()) found.insert(text::normal(path));
    return found;
}

Unit *Lines::unit_at(Dwarf_Addr place) {
    const Start *found = range_at(starts, place);
    return found ? units[found->number].get() : nullptr;
}

std::vector<Frame> Lines::frames(Dwarf_Addr place) {
    Unit *unit = unit_at(place);
    return unit ? unit->frames(place) : std::vector<Frame>{};
}

std::optional<Dwarf_Die> Lines::allocated(Dwarf_Addr place) {
    Unit *unit = unit_at(place);
    return unit ? unit->allocated(place) : std::nullopt;
}

std::optional<Dwarf_Die> Lines::made_unique(Dwarf_Addr place) {
    Unit *unit = unit_at(place);
    return unit ? unit->made_unique(place) : std::nullopt;
}

std::optional<Dwarf_Die> Lines::constructed(Dwarf_Addr place, uint64_t size, Dwarf_Addr outside) {
    Unit *unit = unit_at(place);
    bool is_near = outside && unit_at(outside) == unit;
    return unit ? unit->constructed(place, size, is_near ? outside : 0) : std::nullopt;
}

std::optional<Dwarf_Die> Lines::guessed(Dwarf_Addr place, uint64_t size, bool &passes_on) {
    Unit *unit = unit_at(place);
    passes_on = false;
    return unit ? unit->guessed(place, size, passes_on) : std::nullopt;
}

locals::Name Lines::local_name(Dwarf_Addr place, const locals::Frame &frame, uint64_t at, uint64_t size,
                               const locals::Uses &uses) {
    Unit *unit = unit_at(place);
    return unit ? unit->local_name(place, frame, at, size, uses) : locals::Name{"", ""};
}

}
