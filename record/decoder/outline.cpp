#include "outline.hpp"
#include <algorithm>
#include <dwarf.h>
#include <memory>
#include <unordered_map>
#include "sections.hpp"

namespace outline {

namespace {

// A code of an abbreviation beyond this number, and entries in each other beyond this number, are damage.
constexpr uint64_t MOST_CODE = 1 << 20;
constexpr size_t MOST_DEPTH = 10000;

// What all entries with one abbreviation have: the forms of their attributes, and how many bytes all take if each of
// them takes as many. The location is that of its attribute, if it is an expression.
struct Shape {
    unsigned tag = 0;
    bool is_known = false, has_children = false, has_code = false;
    int location = -1;
    int64_t fixed = 0;
    std::vector<unsigned> forms;
};

bool is_expression(unsigned form) {
    return form == DW_FORM_exprloc || form == DW_FORM_block1 || form == DW_FORM_block2 || form == DW_FORM_block4 ||
        form == DW_FORM_block;
}

// Whether an expression begins with the address of a variable, or with its offset in those of a thread.
bool is_address(uint64_t operation) {
    switch (operation) {
    case DW_OP_addr:
    case DW_OP_addrx:
    case DW_OP_const4u:
    case DW_OP_const8u:
    case DW_OP_constx:
    case DW_OP_GNU_addr_index:
    case DW_OP_GNU_const_index:
    // The first part of a variable in pieces may be nowhere.
    case DW_OP_piece: return true;
    default: return false;
    }
}

// The bytes of a unit, and its abbreviations by their codes.
class Bytes {
public:
    explicit Bytes(const Dwarf_Die &unit) : reader(nullptr, nullptr) {
        Dwarf_Die top;
        Dwarf_Half version = 0;
        Dwarf_Off abbreviations = 0;
        uint8_t address = 0, offset = 0;
        if (!dwarf_cu_die(unit.cu, &top, &version, &abbreviations, &address, &offset, nullptr, nullptr)) return;
        sizes = {address, offset, version};
        std::string ending;
        reader = of_unit(unit, ending);
        read_shapes(unit, "debug_abbrev" + ending, abbreviations);
    }
    bytes::Reader reader;
    const Shape *shape(uint64_t code) const {
        return code < shapes.size() && shapes[code].is_known ? &shapes[code] : nullptr;
    }
    // Goes over the attributes of an entry. False if they are damaged. `operation` gets the first one of its location.
    bool skip(const Shape &shape, uint64_t &operation) {
        if (shape.fixed >= 0) return reader.skip(static_cast<uint64_t>(shape.fixed)), !reader.is_short();
        for (size_t k = 0; k < shape.forms.size(); k++) {
            if (static_cast<int>(k) == shape.location) operation = first_of(shape.forms[k]);
            if (!sections::skip(reader, shape.forms[k], sizes) || reader.is_short()) return false;
        }
        return true;
    }

private:
    // From the entry of the unit on to the end that is in the head of the unit.
    bytes::Reader of_unit(const Dwarf_Die &unit, std::string &ending) const {
        bytes::Reader rest = sections::from_entry(unit, ending);
        if (!rest.has_more()) return rest;
        Dwarf_Die die = unit;
        uint64_t before = dwarf_cuoffset(&die), mark = sizes.offset == 8 ? 4 : 0;
        bytes::Reader head(rest.place() - before + mark, rest.place());
        uint64_t whole = head.number(sizes.offset), after = whole + sizes.offset + mark - before;
        return {rest.place(), rest.place() + std::min(after, rest.left())};
    }
    void read_shapes(const Dwarf_Die &unit, const std::string &section, uint64_t start) {
        bytes::Reader table = sections::section(dwarf_cu_getdwarf(unit.cu), section);
        table.skip(start);
        uint64_t code = 0;
        while (table.has_more() && (code = table.leb()) && code < MOST_CODE) {
            if (code >= shapes.size()) shapes.resize(code + 1 + code / 2);
            if (!shapes[code].is_known) read_shape(table, shapes[code]);
            else return;
        }
    }
    void read_shape(bytes::Reader &table, Shape &shape) {
        shape.is_known = true;
        shape.tag = static_cast<unsigned>(table.leb());
        shape.has_children = table.number(1);
        while (table.has_more()) {
            uint64_t attribute = table.leb();
            unsigned form = static_cast<unsigned>(table.leb());
            if (form == DW_FORM_implicit_const) table.leb();
            if (!attribute && !form) return;
            shape.has_code |= attribute == DW_AT_low_pc || attribute == DW_AT_ranges;
            if (attribute == DW_AT_location && is_expression(form))
                shape.location = static_cast<int>(shape.forms.size());
            int size = sections::fixed_size(form, sizes);
            shape.fixed = size < 0 || shape.fixed < 0 ? -1 : shape.fixed + size;
            shape.forms.push_back(form);
        }
    }
    uint64_t first_of(unsigned form) const {
        bytes::Reader value = reader;
        uint64_t size = 0;
        if (form == DW_FORM_block1) size = value.number(1);
        else if (form == DW_FORM_block2) size = value.number(2);
        else if (form == DW_FORM_block4) size = value.number(4);
        else size = value.leb();
        return size ? value.number(1) : 0;
    }
    sections::Sizes sizes{};
    std::vector<Shape> shapes;
};

// Reads all entries of a unit. `see` gets each, the first operation of its location, and whether others are inside it;
// `end` gets where those inside the last open one end.
template <class See, class End> void read(const Dwarf_Die &unit, See see, End end) {
    Bytes bytes(unit);
    size_t depth = 0;
    while (bytes.reader.has_more()) {
        const uint8_t *at = bytes.reader.place();
        uint64_t code = bytes.reader.leb(), operation = 0;
        if (!code && !depth) break;
        if (!code) {
            end(bytes.reader.place());
            if (--depth == 0) break;
            continue;
        }
        const Shape *shape = bytes.shape(code);
        if (!shape || !bytes.skip(*shape, operation)) break;
        see(at, *shape, operation);
        depth += shape->has_children;
        if (!depth || depth > MOST_DEPTH) break;
    }
    for (; depth; depth--) end(bytes.reader.place());
}

Dwarf_Die entry_at(const uint8_t *at, Dwarf_CU *unit) {
    Dwarf_Die die{};
    die.addr = const_cast<uint8_t *>(at);
    die.cu = unit;
    return die;
}

// An entry with others inside: where it begins and ends, and the number of the one around it.
struct Scope {
    const uint8_t *start, *end;
    size_t around;
};

struct Outline {
    std::vector<Scope> scopes;
    std::vector<Dwarf_Die> functions;
    explicit Outline(const Dwarf_Die &unit) {
        // The open scopes, each with whether it is a function that has code.
        std::vector<std::pair<size_t, bool>> open;
        read(
            unit,
            [&](const uint8_t *at, const Shape &shape, uint64_t) {
                bool is_function = shape.tag == DW_TAG_subprogram && shape.has_code;
                if (!shape.has_children) {
                    if (is_function) functions.push_back(entry_at(at, unit.cu));
                    return;
                }
                scopes.push_back({at, at, open.empty() ? 0 : open.back().first});
                open.emplace_back(scopes.size() - 1, is_function);
            },
            [&](const uint8_t *at) {
                scopes[open.back().first].end = at;
                if (open.back().second) functions.push_back(entry_at(scopes[open.back().first].start, unit.cu));
                open.pop_back();
            });
    }
};

const Outline &outline_of(const Dwarf_Die &die) {
    static std::unordered_map<Dwarf_CU *, std::unique_ptr<Outline>> known;
    std::unique_ptr<Outline> &found = known[die.cu];
    Dwarf_Die top;
    if (!found && dwarf_cu_die(die.cu, &top, nullptr, nullptr, nullptr, nullptr, nullptr, nullptr))
        found = std::make_unique<Outline>(top);
    else if (!found) found = std::make_unique<Outline>(Dwarf_Die{});
    return *found;
}

}

std::vector<Dwarf_Die> variables_of(const Dwarf_Die &unit) {
    std::vector<Dwarf_Die> found;
    read(
        unit,
        [&](const uint8_t *at, const Shape &shape, uint64_t operation) {
            if (shape.tag == DW_TAG_variable && is_address(operation)) found.push_back(entry_at(at, unit.cu));
        },
        [](const uint8_t *) {});
    return found;
}

const std::vector<Dwarf_Die> &functions_of(const Dwarf_Die &unit) { return outline_of(unit).functions; }

std::vector<Dwarf_Die> scopes_of(const Dwarf_Die &die) {
    std::vector<Dwarf_Die> found;
    const std::vector<Scope> &scopes = outline_of(die).scopes;
    auto at = static_cast<const uint8_t *>(die.addr);
    auto after = std::lower_bound(scopes.begin(), scopes.end(), at,
                                  [](const Scope &one, const uint8_t *place) { return one.start < place; });
    if (after == scopes.begin()) return found;
    for (const Scope *one = &*std::prev(after);; one = &scopes[one->around]) {
        if (at < one->end) found.push_back(entry_at(one->start, die.cu));
        if (one->around == static_cast<size_t>(one - scopes.data())) return found;
    }
}

}
