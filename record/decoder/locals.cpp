#include "locals.hpp"
#include <algorithm>
#include <map>
#include <optional>
#include "text.hpp"
#include "types.hpp"

namespace dwarf {

// The linker moves what it drops to 0 or 1.
Ranges ranges_of(Dwarf_Die &die) {
    Ranges found;
    Dwarf_Addr base = 0, start = 0, end = 0;
    for (ptrdiff_t at = 0; (at = dwarf_ranges(&die, at, &base, &start, &end)) > 0;) {
        if (start > 1) found.emplace_back(start, end);
    }
    return found;
}

bool holds(const Ranges &ranges, Dwarf_Addr place) {
    return std::any_of(ranges.begin(), ranges.end(),
                       [place](auto &range) { return range.first <= place && place < range.second; });
}

}

namespace locals {

namespace {

// Scopes in each other beyond this number are not looked into.
constexpr int MOST_DEPTH = 200;
// A frame pointer is so far below the end of its frame.
constexpr int64_t BELOW_END = 16;
// The registers of x86-64 that frames are counted from.
constexpr Dwarf_Word FRAME_POINTER = 6, STACK_POINTER = 7;

// What a frame is counted from, if an operation says so.
std::optional<From> from_of(const Dwarf_Op &operation) {
    switch (operation.atom) {
    case DW_OP_call_frame_cfa: return From::END;
    case DW_OP_reg6:
    case DW_OP_breg6: return From::POINTER;
    case DW_OP_reg7:
    case DW_OP_breg7: return From::START;
    case DW_OP_regx: break;
    default: return std::nullopt;
    }
    if (operation.number == FRAME_POINTER) return From::POINTER;
    if (operation.number == STACK_POINTER) return From::START;
    return std::nullopt;
}

int64_t start_of(const Local &local, const Frame &frame) {
    switch (local.from) {
    case From::POINTER: return static_cast<int64_t>(frame.end) - BELOW_END + local.offset;
    case From::START: return static_cast<int64_t>(frame.start) + local.offset;
    default: return static_cast<int64_t>(frame.end) + local.offset;
    }
}

}

Locals::Locals(Dwarf_Die function, std::string (*name_of)(Dwarf_Die)) : name_of(name_of) {
    Dwarf_Attribute attribute;
    Dwarf_Op *operations = nullptr;
    size_t count = 0;
    if (dwarf_attr(&function, DW_AT_frame_base, &attribute) &&
        dwarf_getlocation(&attribute, &operations, &count) == 0 && count == 1) {
        std::optional<From> from = from_of(operations[0]);
        has_base = from && !(operations[0].atom >= DW_OP_breg0 && operations[0].number);
        base = from.value_or(From::END);
    }
    walk(function, {dwarf::ranges_of(function), 0, ""});
}

void Locals::walk(Dwarf_Die entry, const Around &around) {
    if (around.depth > MOST_DEPTH) return;
    Dwarf_Die child;
    for (int answer = dwarf_child(&entry, &child); answer == 0; answer = dwarf_siblingof(&child, &child)) {
        int tag = dwarf_tag(&child);
        if (tag == DW_TAG_variable || tag == DW_TAG_formal_parameter) {
            add(child, around);
        } else if (tag == DW_TAG_inlined_subroutine) {
            walk(child, {dwarf::ranges_of(child), around.depth + 1, name_of(child)});
        } else if (tag == DW_TAG_lexical_block || tag == DW_TAG_try_block || tag == DW_TAG_catch_block) {
            dwarf::Ranges scope = dwarf::ranges_of(child);
            walk(child, {scope.empty() ? around.scope : scope, around.depth + 1, around.inlined});
        }
    }
}

// A place may be counted from a register. One of a list holds in a part of the code: what is counted from the frame
// pointer there is so only if the frame is too.
void Locals::add_at(Dwarf_Die &die, const Around &around, const Dwarf_Op &operation, const dwarf::Ranges &when) {
    bool is_in_frame = operation.atom == DW_OP_fbreg, is_for_a_while = !when.empty() && !is_in_frame;
    if (is_in_frame ? !has_base : operation.atom != DW_OP_breg6 && operation.atom != DW_OP_breg7) return;
    From from = is_in_frame ? base : *from_of(operation);
    if (is_for_a_while && from == From::POINTER && base != From::POINTER) return;
    std::optional<Dwarf_Die> type = types::type_of(die);
    uint64_t size = std::max<uint64_t>(type ? types::size_of(*type) : 0, 1);
    auto offset = static_cast<int64_t>(operation.number);
    auto is_same = [&](const Local &one) {
        return one.die.addr == die.addr && one.from == from && one.offset == offset;
    };
    auto known = std::find_if(all.begin(), all.end(), is_same);
    if (known == all.end())
        all.push_back({from, offset, size, die, is_for_a_while ? when : around.scope, around.depth, around.inlined,
                       is_for_a_while});
    else if (is_for_a_while && known->is_for_a_while) known->scope.insert(known->scope.end(), when.begin(), when.end());
}

void Locals::add(Dwarf_Die &die, const Around &around) {
    Dwarf_Attribute attribute;
    if (!dwarf_diename(&die) || !dwarf_attr(&die, DW_AT_location, &attribute)) return;
    Dwarf_Op *operations = nullptr;
    size_t count = 0;
    if (dwarf_getlocation(&attribute, &operations, &count) == 0) {
        if (count == 1) add_at(die, around, operations[0], {});
        return;
    }
    Dwarf_Addr from = 0, start = 0, end = 0;
    for (ptrdiff_t at = 0; (at = dwarf_getlocations(&attribute, at, &from, &start, &end, &operations, &count)) > 0;)
        if (count == 1) add_at(die, around, operations[0], {{start, end}});
}

static bool is_used_in(const dwarf::Ranges &code, const Uses &uses) {
    return std::any_of(uses.begin(), uses.end(), [&](auto &use) { return dwarf::holds(code, use.first); });
}

// Each use is for the innermost variable whose scope has it; the one with the most uses is chosen.
const Local *Locals::chosen(const std::vector<const Local *> &found, const Uses &uses) const {
    if (found.size() == 1) return found[0];
    std::map<size_t, uint64_t> counts;
    for (auto &use : uses) {
        size_t best = found.size();
        for (size_t k = 0; k < found.size(); k++)
            if (dwarf::holds(found[k]->scope, use.first) &&
                (best == found.size() || found[k]->depth > found[best]->depth))
                best = k;
        if (best < found.size()) counts[best] += use.second;
    }
    auto most = std::max_element(counts.begin(), counts.end(),
                                 [](const auto &a, const auto &b) { return a.second < b.second; });
    return most == counts.end() ? nullptr : found[most->first];
}

Name Locals::name(const Frame &frame, uint64_t at, uint64_t size, const Uses &uses) const {
    std::vector<const Local *> found;
    for (const Local &one : all) {
        int64_t offset = static_cast<int64_t>(at) - start_of(one, frame);
        bool is_there = offset >= 0 && static_cast<uint64_t>(offset) < one.size;
        if (is_there && (!one.is_for_a_while || is_used_in(one.scope, uses))) found.push_back(&one);
    }
    const Local *local = found.empty() ? nullptr : chosen(found, uses);
    if (!local) return {"", ""};
    Dwarf_Die die = local->die;
    auto offset = static_cast<uint64_t>(static_cast<int64_t>(at) - start_of(*local, frame));
    return {local->inlined, text::plain(dwarf_diename(&die) + types::path_in(die, offset, size))};
}

}
