#include "variables.hpp"
#include <algorithm>
#include <cstdlib>
#include "outline.hpp"
#include "text.hpp"
#include "types.hpp"

namespace variables {

namespace {

// The address that an operation puts, as a number or by its place in a table.
bool address_in(Dwarf_Attribute &location, const Dwarf_Op &operation, Dwarf_Addr &to) {
    if (operation.atom == DW_OP_addr) return to = operation.number, true;
    Dwarf_Attribute other;
    return operation.atom == DW_OP_addrx && dwarf_getlocation_attr(&location, &operation, &other) == 0 &&
        dwarf_formaddr(&other, &to) == 0;
}

// The offset that an operation puts, for a variable that each thread has.
bool offset_in(Dwarf_Attribute &location, const Dwarf_Op &operation, Dwarf_Addr &to) {
    Dwarf_Attribute other;
    switch (operation.atom) {
    case DW_OP_addr:
    case DW_OP_const4u:
    case DW_OP_const8u: return to = operation.number, true;
    case DW_OP_constx:
    case DW_OP_GNU_const_index:
        return dwarf_getlocation_attr(&location, &operation, &other) == 0 &&
            (dwarf_formudata(&other, &to) == 0 || dwarf_formaddr(&other, &to) == 0);
    default: return false;
    }
}

bool is_scope(int tag) {
    return tag == DW_TAG_namespace || tag == DW_TAG_structure_type || tag == DW_TAG_class_type ||
        tag == DW_TAG_union_type || tag == DW_TAG_subprogram;
}

// A name with the namespaces, classes and functions around it. A function without a name is `?`.
std::string qualified(Dwarf_Die die) {
    const char *own = dwarf_diename(&die);
    std::string name = own ? text::without_template(own) : "?";
    for (Dwarf_Die &scope : outline::scopes_of(types::declared(die))) {
        const char *around = is_scope(dwarf_tag(&scope)) ? dwarf_diename(&scope) : nullptr;
        if (around) name = text::without_template(around) + "::" + name;
    }
    return name;
}

// The name of a variable with the scopes or the function around it: `ns::Class::member`, `Class::function:variable`.
std::string scoped_name(Dwarf_Die die) {
    const char *own = dwarf_diename(&die);
    for (Dwarf_Die &scope : outline::scopes_of(types::declared(die)))
        if (dwarf_tag(&scope) == DW_TAG_subprogram)
            return text::function_name(qualified(scope)) + ":" + text::plain(own ? own : "?");
    return text::plain(qualified(die));
}

}

bool Variables::add_of_thread(Dwarf_Die &die, Dwarf_Attribute &location, const Dwarf_Op *operations, size_t count) {
    if (count != 2) return false;
    if (operations[1].atom != DW_OP_form_tls_address && operations[1].atom != DW_OP_GNU_push_tls_address) return false;
    Dwarf_Addr start = 0;
    std::optional<Dwarf_Die> type = types::type_of(die);
    uint64_t size = std::max<uint64_t>(type ? types::size_of(*type) : 0, 1);
    if (offset_in(location, operations[0], start)) of_threads.push_back({start, size, 0, die});
    return true;
}

void Variables::add(Dwarf_Die &die) {
    Dwarf_Attribute location;
    Dwarf_Op *operations = nullptr;
    size_t count = 0;
    if (!dwarf_attr(&die, DW_AT_location, &location) || dwarf_getlocation(&location, &operations, &count) != 0) return;
    if (add_of_thread(die, location, operations, count)) return;
    uint64_t offset = 0, size = 0;
    for (size_t k = 0; k < count; k++) {
        Dwarf_Addr start = 0;
        bool is_piece = k + 1 < count && operations[k + 1].atom == DW_OP_piece;
        if (operations[k].atom == DW_OP_piece) {
            offset += operations[k].number;
            continue;
        }
        if (!address_in(location, operations[k], start) || (count > 1 && !is_piece)) return;
        std::optional<Dwarf_Die> type = types::type_of(die);
        size = is_piece ? operations[k + 1].number : type ? types::size_of(*type) : 0;
        if (start > 1) all.push_back({start, std::max<uint64_t>(size, 1), offset, die});
    }
}

void Variables::read(Dwarf *debug) {
    were_read = true;
    Dwarf_CU *unit = nullptr;
    Dwarf_Die die{}, split{};
    while (debug && dwarf_get_units(debug, unit, &unit, nullptr, nullptr, &die, &split) == 0) {
        for (Dwarf_Die &one : outline::variables_of(split.addr ? split : die)) add(one);
        die = split = Dwarf_Die{};
    }
    auto is_before = [](const Variable &a, const Variable &b) { return a.start < b.start; };
    std::stable_sort(all.begin(), all.end(), is_before);
    std::stable_sort(of_threads.begin(), of_threads.end(), is_before);
}

const Variable *Variables::at(const std::vector<Variable> &all, Dwarf_Addr start) {
    auto after = std::upper_bound(all.begin(), all.end(), start,
                                  [](Dwarf_Addr at, const Variable &one) { return at < one.start; });
    if (after == all.begin()) return nullptr;
    const Variable &one = *std::prev(after);
    return start < one.start + one.size ? &one : nullptr;
}

std::string Variables::name(Dwarf *debug, Dwarf_Addr start, uint64_t size, bool of_thread) {
    if (!were_read) read(debug);
    const Variable *found = at(of_thread ? of_threads : all, start);
    if (!found) return "";
    return scoped_name(found->die) +
        text::plain(types::path_in(found->die, start - found->start + found->offset, size));
}

}
