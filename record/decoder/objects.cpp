#include "objects.hpp"
#include <algorithm>
#include "text.hpp"
#include "types.hpp"

namespace objects {

constexpr int PIECE_BITS = 20;
// The most places of code that are kept for a place in a frame.
constexpr size_t MOST_USES = 16;

void Objects::restart() {
    on = {};
    std::fill(known.begin(), known.end(), Found{});
    std::fill(pages.begin(), pages.end(), Whole{});
}

// What was known of the pages from `start` to `end` is known no more.
void Objects::changed(u64 start, u64 end) {
    u64 first = start >> PAGE_BITS, last = (end - 1) >> PAGE_BITS;
    if (last - first >= PAGES) last = first + PAGES - 1;
    for (u64 page = first; page <= last; page++) ages[page % PAGES]++;
}

void Objects::begin(u64 start, u64 size) {
    u64 end = start + (size ? size : 1);
    auto at = on.living.upper_bound(start);
    if (at != on.living.begin()) --at;
    while (at != on.living.end() && at->first < end) {
        u64 its_end = at->second.end(at->first);
        if (its_end <= start) {
            ++at;
            continue;
        }
        changed(at->first, its_end);
        at = on.living.erase(at);
    }
    cut_inside(start, end);
    changed(start, end);
    on.living[start] = {size, on.next++};
}

void Objects::begin_block(const record &one) {
    begin(one.at, one.size);
    if (all->names.size() >= on.next) return;
    u32 site = site_at({one.pc, one.stack}), place = all->place_of_site[site];
    all->names.push_back({place, ++all->given[place], site, one.thread, one.size});
}

u32 Objects::site_at(const places::Key &key) {
    auto made = all->site_of.emplace(key, static_cast<u32>(all->sites.size()));
    if (!made.second) return made.first->second;
    const std::string &name = modules.place(key.pc, key.call);
    auto number = all->place_numbers.emplace(name, static_cast<u32>(all->place_names.size()));
    if (number.second) all->place_names.push_back(name), all->given.push_back(0);
    all->sites.push_back({key, {0, 0}, false, false, std::nullopt, ""});
    all->place_of_site.push_back(number.first->second);
    return made.first->second;
}

void Objects::begin_stack(const record &one) {
    begin(one.at, one.size);
    if (all->names.size() < on.next) all->names.push_back({STACK_PLACE, one.thread, 0, one.thread, one.size});
}

// What was inside there is there no more.
void Objects::cut_inside(u64 start, u64 end) {
    auto at = on.inside.upper_bound(start);
    while (at != on.inside.end() && at->second.start < end) {
        Piece piece = at->second;
        if (piece.start < start) on.inside.emplace_hint(at, start, piece);
        if (at->first > end) {
            at->second.start = end;
            return;
        }
        at = on.inside.erase(at);
    }
}

// If one piece alone is in the way and has the same end, its entry is used again: so it is for most calls.
void Objects::begin_inside(u64 end, const Piece &piece) {
    if (end <= piece.start) return;
    auto at = on.inside.upper_bound(piece.start);
    if (at != on.inside.end() && at->first == end) {
        if (at->second.start < piece.start) on.inside.emplace_hint(at, piece.start, at->second);
        at->second = piece;
    } else {
        cut_inside(piece.start, end);
        on.inside[end] = piece;
    }
    changed_inside(end, piece);
}

void Objects::Recents::cut(u64 start, u64 end) {
    if (last.meets(start, end)) last = other, other = {};
    if (other.meets(start, end)) other = {};
    if (last.meets(start, end)) last = {};
}

// A part began. The page's other parts that were found last are still known.
void Objects::changed_inside(u64 end, const Piece &piece) {
    u64 first = piece.start >> PAGE_BITS, last = (end - 1) >> PAGE_BITS;
    if (last - first >= WHOLE_PAGES) return changed(piece.start, end);
    for (u64 page = first; page <= last; page++) {
        Whole &whole = pages[page % WHOLE_PAGES];
        u32 &age = ages[page % PAGES];
        bool is_known = whole.page == page && whole.age == age;
        age++;
        if (!is_known) continue;
        whole = {page, 0, age, NOTHING};
        recent[page % WHOLE_PAGES].cut(piece.start, end);
        recent[page % WHOLE_PAGES].put({piece.start, end - piece.start, piece.base, piece.thing});
    }
}

// The activation that has more memory than was known, or else a new one.
Thing Objects::same_frame(const record &one) const {
    auto at = one.order ? on.inside.find(one.at + one.size) : on.inside.end();
    if (at == on.inside.end()) return NOTHING;
    const Activation *found = activation_of(at->second.thing);
    bool is_same = found && found->frame.end == at->first && found->body == one.pc;
    return is_same ? at->second.thing : NOTHING;
}

void Objects::begin_frame(const record &one) {
    Thing thing = same_frame(one);
    u64 end = one.at + one.size;
    if (thing == NOTHING) {
        thing = on.next++;
        if (all->names.size() < on.next) {
            all->names.push_back({FRAME_PLACE, 0, static_cast<u32>(all->activations.size()), one.thread, 0});
            all->activations.push_back({one.pc, {one.answer, end}, one.thread});
        }
    }
    begin_inside(end, {one.at, end - BEFORE_END, thing});
}

void Objects::begin_own_variables(const record &stack) {
    u64 size = stack.answer ? modules.own_variables() : 0;
    if (!size || size > stack.answer) return;
    Thing thing = on.next++;
    if (all->names.size() < on.next) all->names.push_back({OWN_PLACE, 0, 0, stack.thread, size});
    begin_inside(stack.answer, {stack.answer - size, stack.answer - size, thing});
}

const Activation *Objects::activation_of(Thing thing) const {
    bool is_frame = thing < all->names.size() && all->names[thing].place == FRAME_PLACE;
    return is_frame ? &all->activations[all->names[thing].site] : nullptr;
}

void Objects::resize(u64 start, u64 size) {
    auto at = on.living.find(start);
    if (at == on.living.end()) return;
    changed(start, std::max(at->second.end(start), start + size));
    at->second.size = size;
}

Where Objects::living_with(u64 address) const {
    auto next = on.living.upper_bound(address);
    if (next == on.living.begin()) return {NOTHING, 0};
    auto last = std::prev(next);
    return address < last->second.end(last->first) ? Where{last->second.thing, address - last->first}
                                                   : Where{NOTHING, 0};
}

Where Objects::living_at(u64 start) const {
    auto at = on.living.find(start);
    return at == on.living.end() ? Where{NOTHING, 0} : Where{at->second.thing, at->second.size};
}

// Pages that no block has alone are kept too, as those of nothing.
void Objects::find_whole(u64 page, Whole &to) const {
    u64 start = page << PAGE_BITS, end = start + (1ull << PAGE_BITS);
    to = {page, 0, ages[page % PAGES], NOTHING};
    auto piece = on.inside.upper_bound(start);
    if (piece != on.inside.end() && piece->second.start < end) return;
    auto after = on.living.upper_bound(start);
    if (after == on.living.begin()) return;
    auto &block = *std::prev(after);
    if (block.second.end(block.first) >= end) to.start = block.first, to.thing = block.second.thing;
}

Where Objects::found_at(u64 address) {
    u64 page = address >> PAGE_BITS;
    Whole &whole = pages[page % WHOLE_PAGES];
    Recents &two = recent[page % WHOLE_PAGES];
    if (whole.page != page || whole.age != ages[page % PAGES]) find_whole(page, whole), two = {};
    if (whole.thing != NOTHING) return {whole.thing, address - whole.start};
    if (two.last.has(address)) return {two.last.thing, address - two.last.base};
    if (two.other.has(address)) return {two.other.thing, address - two.other.base};
    Found &found = known[place_of(address)];
    u32 age = ages[(address >> PAGE_BITS) % PAGES];
    if (found.address != address || found.age != age) {
        found.where = searched(address);
        found.address = address;
        found.age = age;
    }
    return found.where;
}

Where Objects::searched(u64 address) {
    auto found = on.inside.upper_bound(address);
    if (found != on.inside.end() && found->second.start <= address) {
        const Piece &piece = found->second;
        recent[(address >> PAGE_BITS) % WHOLE_PAGES].put(
            {piece.start, found->first - piece.start, piece.base, piece.thing});
        return {piece.thing, address - piece.base};
    }
    auto after = on.living.upper_bound(address);
    if (after != on.living.begin()) {
        auto &block = *std::prev(after);
        if (address < block.second.end(block.first)) return {block.second.thing, address - block.first};
    }
    return lasting_at(address);
}

// Others may look for things that last at the same time.
Where Objects::lasting_at(u64 address) {
    std::lock_guard<std::mutex> guard(all->lasting);
    places::Variable variable = modules.variable_at(address);
    if (!variable.name.empty()) {
        auto made = all->symbols.emplace(variable.start, NOTHING);
        if (made.second) made.first->second = lasting(variable.name, variable.start);
        return {made.first->second, address - variable.start};
    }
    u64 piece = address >> PIECE_BITS;
    auto made = all->pieces.emplace(piece, NOTHING);
    if (made.second) {
        char name[40];
        snprintf(name, sizeof name, "memory:%llx", static_cast<unsigned long long>(piece << PIECE_BITS));
        made.first->second = lasting(name);
    }
    return {made.first->second, address & ((1u << PIECE_BITS) - 1)};
}

Thing Objects::lasting(const std::string &name, u64 symbol) {
    all->lasting_names.push_back(name);
    all->lasting_symbols.push_back(symbol);
    return LASTING + static_cast<Thing>(all->lasting_names.size() - 1);
}

Thing Objects::named(int kind, u64 number) {
    static const char *const kinds[] = {"memory", "fd", "channel", "chance", "team"};
    std::lock_guard<std::mutex> guard(all->lasting);
    auto made = all->others.emplace(static_cast<u64>(kind) << 56 ^ number, NOTHING);
    if (made.second) made.first->second = lasting(std::string(kinds[kind % 5]) + ":" + std::to_string(number));
    return made.first->second;
}

std::string Objects::name(Thing thing, u64 place) const {
    std::string whole;
    if (thing >= LASTING) whole = all->lasting_names[thing - LASTING];
    else if (all->names[thing].place == STACK_PLACE) whole = "stack:T" + std::to_string(all->names[thing].number);
    else whole = "heap:" + all->place_names[all->names[thing].place] + "#" + std::to_string(all->names[thing].number);
    return place ? whole + "+" + std::to_string(place) : whole;
}

std::string Objects::source_name(Thing thing, u64 place, u64 size) {
    if (thing < LASTING) {
        switch (all->names[thing].place) {
        case STACK_PLACE: return "";
        case FRAME_PLACE: return frame_name(thing, place, size);
        case OWN_PLACE: return own_name(all->names[thing], place, size);
        default: return block_name(thing, place, size);
        }
    }
    u64 symbol = all->lasting_symbols[thing - LASTING];
    return symbol ? modules.variable_name(symbol, place, size) : "";
}

void Objects::see_write(Thing thing, const record &one, Writes &first) const {
    if (thing >= all->names.size()) return;
    const Name &block = all->names[thing];
    if (block.place >= OWN_PLACE || block.thread != one.thread) return;
    if (first.size() <= block.site) first.resize(all->sites.size());
    if (!first[block.site].pc) first[block.site] = {one.pc, one.stack};
}

void Objects::keep_writes(const Writes &first) {
    for (size_t site = 0; site < first.size(); site++)
        if (!all->sites[site].written.pc) all->sites[site].written = first[site];
}

const Objects::Site &Objects::site_of_block(const Name &block) {
    Site &site = all->sites[block.site];
    if (site.was_looked_for) return site;
    site.was_looked_for = true;
    site.type = modules.allocated(site.key.pc, site.key.call);
    if (!site.type) site.type = modules.constructed(site.key, site.written, block.size);
    bool is_guess = !site.type;
    if (is_guess) site.type = modules.guessed(site.key, block.size);
    if (site.type) site.label = text::plain(types::label_of(*site.type));
    if (is_guess && !site.label.empty()) site.label += "?";
    std::optional<Dwarf_Die> type = site.type ? types::object_type(*site.type) : std::nullopt;
    site.has_open_end = type && types::has_open_end(*type);
    return site;
}

// The type of a block; empty if it is not known, or if it has more bytes.
std::string Objects::label_of(const Name &block) {
    const Site &site = site_of_block(block);
    std::optional<Dwarf_Die> type = site.type ? types::object_type(*site.type) : std::nullopt;
    uint64_t size = type ? types::size_of(*type) : 0;
    return size && size <= block.size ? site.label : "";
}

// The name of a block or frame without a number: the place and the type of a block, or the function.
std::string Objects::base_name(Thing thing) {
    const Name &of = all->names[thing];
    if (of.place == FRAME_PLACE) return modules.function_at(all->activations[of.site].body);
    std::string label = label_of(of);
    return "heap:" + all->place_names[of.place] + (label.empty() ? "" : " " + label);
}

// Those with one name are counted by their threads, and the only one has no number.
void Objects::number(const std::vector<Thing> &printed) {
    std::unordered_map<std::string, u32> counts;
    std::map<std::pair<std::string, u16>, u32> by_thread;
    std::vector<std::pair<Thing, std::string>> bases;
    for (Thing thing : printed) {
        if (thing >= LASTING || all->names[thing].place == STACK_PLACE || all->names[thing].place == OWN_PLACE)
            continue;
        bases.emplace_back(thing, base_name(thing));
        counts[bases.back().second]++;
    }
    for (auto &[thing, base] : bases) {
        u16 thread = all->names[thing].thread;
        u32 count = ++by_thread[{base, thread}];
        if (counts[base] == 1) continue;
        std::string number = count > 1 ? std::to_string(count) : "";
        if (thread) number = "T" + std::to_string(thread) + (number.empty() ? "" : "." + number);
        if (!number.empty()) all->numbers[thing] = "#" + number;
    }
}

std::string Objects::number_of(Thing thing) const {
    auto found = all->numbers.find(thing);
    return found == all->numbers.end() ? "" : found->second;
}

// A block of two objects or more is an array. Bytes of two elements have the offset in the block.
std::string Objects::block_name(Thing thing, u64 place, u64 size) {
    const Name &block = all->names[thing];
    const Site &site = site_of_block(block);
    std::optional<Dwarf_Die> type = label_of(block).empty() ? std::nullopt : types::object_type(*site.type);
    u64 each = type ? types::size_of(*type) : 0;
    std::string name = base_name(thing) + number_of(thing);
    if (each && site.has_open_end) return name + text::plain(types::path_in(*site.type, place, size));
    if (!each || place % each + size > each) return name + (place ? "+" + std::to_string(place) : "");
    if (block.size >= 2 * each) name += "[" + std::to_string(place / each) + "]";
    return name + text::plain(types::path_in(*site.type, place % each, size));
}

static std::pair<Dwarf_Addr, uint64_t> *use_at(locals::Uses &uses, u64 pc) {
    auto same = std::find_if(uses.begin(), uses.end(), [pc](auto &one) { return one.first == pc; });
    return same == uses.end() ? nullptr : &*same;
}

void Objects::Used::add(u64 pc) {
    if (auto same = use_at(first, pc)) same->second++;
    else if (first.size() < MOST_USES) first.emplace_back(pc, 1);
    else others[pc]++;
}

// Of all places of code the first MOST_USES are kept. Others of one part may be first ones of an earlier part.
void Objects::keep_uses(const Uses &more) {
    for (auto &place : more) {
        locals::Uses &known = all->uses[place.first];
        for (auto &one : place.second.first) {
            if (auto same = use_at(known, one.first)) same->second += one.second;
            else if (known.size() < MOST_USES) known.push_back(one);
        }
        for (auto &one : place.second.others)
            if (auto same = use_at(known, one.first)) same->second += one.second;
    }
}

// If no variable is known there, the offset from the frame's end.
std::string Objects::frame_name(Thing thing, u64 place, u64 size) {
    const Activation &of = all->activations[all->names[thing].site];
    std::string function = base_name(thing), number = number_of(thing);
    auto known = all->uses.find({thing, place});
    u64 address = place + of.frame.end - BEFORE_END;
    locals::Name name =
        modules.local_name(of.body, of.frame, address, size, known == all->uses.end() ? locals::Uses{} : known->second);
    if (!name.variable.empty())
        return (name.inlined.empty() ? function : text::function_name(name.inlined)) + number + ":" + name.variable;
    auto offset = static_cast<long long>(place) - static_cast<long long>(BEFORE_END);
    return "stack:" + function + number + (offset < 0 ? "" : "+") + std::to_string(offset);
}

// The offset is that from the first variable on.
std::string Objects::own_name(const Name &of, u64 place, u64 size) {
    std::string name = modules.own_variable_name(place, size), thread = "T" + std::to_string(of.thread);
    if (!name.empty()) return name + "#" + thread;
    return "thread:" + thread + (place ? "+" + std::to_string(place) : "");
}

}
