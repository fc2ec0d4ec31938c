#include "places.hpp"
#include "text.hpp"
#include <algorithm>
#include <cstring>
#include <set>
#include <tuple>

namespace places {

static std::string in_hexadecimal(u64 number) {
    char digits[32];
    snprintf(digits, sizeof digits, "0x%llx", static_cast<unsigned long long>(number));
    return digits;
}

static std::string joined(const std::string &first, const std::string &between, const std::string &second) {
    return first.empty() || second.empty() ? first + second : first + between + second;
}

Modules::Modules(const raw::File &file) : file(file) {
    for (u64 k = 0; k < std::min<u64>(file.top().modules, MOST_MODULES); k++) {
        const struct module &one = file.top().module[k];
        modules.push_back({one.base, one.end, std::string(one.path, strnlen(one.path, MODULE_PATH)), k == 0, false,
                           nullptr, nullptr});
    }
    std::sort(modules.begin(), modules.end(), [](const Module &a, const Module &b) {
        return std::tie(a.base, a.end, a.path) < std::tie(b.base, b.end, b.path);
    });
    for (u32 k = 0; k < file.calls(); k++) {
        Module *module = of(file.call(k).body);
        if (module) module->is_hooked = true;
    }
}

Module *Modules::of(u64 address) {
    auto after = std::upper_bound(modules.begin(), modules.end(), address,
                                  [](u64 at, const Module &one) { return at < one.base; });
    return after != modules.begin() && address < std::prev(after)->end ? &*std::prev(after) : nullptr;
}

elf::Symbols &Modules::symbols_of(Module &module) {
    if (!module.symbols) module.symbols = std::make_unique<elf::Symbols>(module.path);
    return *module.symbols;
}

dwarf::Lines &Modules::lines_of(Module &module) {
    if (!module.lines) module.lines = std::make_unique<dwarf::Lines>(module.path);
    return *module.lines;
}

// One of a library has the library's name before it.
Variable Modules::variable_at(u64 address) {
    Module *module = of(address);
    const elf::Symbol *found =
        module ? elf::Symbols::at(symbols_of(*module).variables, address - module->base) : nullptr;
    if (!found) return {0, ""};
    std::string library = module->is_program ? "" : text::plain(text::last_part(module->path)) + ":";
    return {module->base + found->start, library + text::plain(text::with_section(found->name))};
}

// The most calls around an allocation that may be those of a container.
constexpr int MOST_CALLS = 4;

std::optional<Dwarf_Die> Modules::allocated(u64 pc, u32 call) {
    for (int calls = 0; calls < MOST_CALLS; calls++) {
        Module *module = of(pc);
        std::optional<Dwarf_Die> found;
        if (module && module->is_hooked) found = lines_of(*module).allocated(pc - 1 - module->base);
        if (found || !call) return found;
        pc = file.call(call).site;
        call = std::min(file.call(call).parent, call - 1);
    }
    return std::nullopt;
}

std::optional<Dwarf_Die> Modules::constructed(const Key &allocated, const Key &written, u64 size) {
    Module *module = of(allocated.pc);
    if (!module || !module->is_hooked) return std::nullopt;
    std::optional<Dwarf_Die> found = lines_of(*module).made_unique(allocated.pc - 1 - module->base);
    // The places from the write on to the function that allocated.
    std::vector<u64> places = {written.pc};
    u32 node = written.call;
    for (; node && node != allocated.call; node = std::min(file.call(node).parent, node - 1))
        places.push_back(file.call(node).site);
    if (found || !written.pc || node != allocated.call) return found;
    for (auto place = places.rbegin(); !found && place != places.rend(); ++place) {
        Module *its = of(*place);
        u64 outside = place == places.rbegin() && its == module ? allocated.pc - 1 - module->base : 0;
        if (its && its->is_hooked) found = lines_of(*its).constructed(*place - 1 - its->base, size, outside);
    }
    return found;
}

std::optional<Dwarf_Die> Modules::guessed(const Key &allocated, u64 size) {
    u64 pc = allocated.pc;
    u32 call = allocated.call;
    for (int calls = 0; calls < MOST_CALLS; calls++) {
        Module *module = of(pc);
        if (!module || !module->is_hooked) return std::nullopt;
        bool passes_on = false;
        std::optional<Dwarf_Die> found = lines_of(*module).guessed(pc - 1 - module->base, size, passes_on);
        if (found || !passes_on || !call) return found;
        pc = file.call(call).site;
        call = std::min(file.call(call).parent, call - 1);
    }
    return std::nullopt;
}

// A static of a function that has no name in the debug information. Its symbol is FUNCTION.VARIABLE in C by clang, and
// FUNCTION(..)::VARIABLE in C++.
std::string Modules::symbol_function(Module &module, u64 start, const std::string &name) {
    const elf::Symbol *symbol = elf::Symbols::at(symbols_of(module).variables, start - module.base);
    std::string whole = symbol ? symbol->name : "";
    size_t last = whole.rfind("::"), dot = whole.find('.');
    if (last != std::string::npos)
        return text::function_name(text::without_lambdas(text::without_parameters(whole.substr(0, last)))) + ":" + name;
    return dot == std::string::npos ? name : text::function_name(whole.substr(0, dot)) + ":" + name;
}

std::string Modules::variable_name(u64 start, u64 place, u64 size) {
    Module *module = of(start);
    std::string name = module ? lines_of(*module).variable_name(start + place - module->base, size) : "";
    if (name.rfind("?:", 0) == 0) name = symbol_function(*module, start, name.substr(2));
    if (name.empty() || module->is_program) return name;
    return text::plain(text::last_part(module->path)) + ":" + name;
}

Module *Modules::program() {
    auto found = std::find_if(modules.begin(), modules.end(), [](const Module &one) { return one.is_program; });
    return found == modules.end() ? nullptr : &*found;
}

u64 Modules::own_variables() {
    Module *module = program();
    if (!own) own = module ? elf::own_variables(module->path) : elf::OwnVariables{0, 0};
    return own->size;
}

// With split debug information, gcc counts from the start of the file.
std::string Modules::own_variable_name(u64 place, u64 size) {
    Module *module = program();
    std::string name = module ? lines_of(*module).thread_variable_name(place, size) : "";
    if (name.empty() && module && own) name = lines_of(*module).thread_variable_name(place + own->start, size);
    return name.rfind("?:", 0) == 0 ? name.substr(2) : name;
}

std::string Modules::function_at(u64 body) {
    auto made = known_functions.emplace(body, "");
    if (!made.second) return made.first->second;
    Frames found = frames(body);
    if (found.empty()) found = without_lines(body);
    std::string name = found.empty() ? "" : found.back().function;
    if (name.empty()) name = found.empty() ? "?" : found.back().place;
    return made.first->second = name;
}

locals::Name Modules::local_name(u64 body, const locals::Frame &frame, u64 at, u64 size, locals::Uses uses) {
    Module *module = of(body);
    if (!module || !module->is_hooked) return {"", ""};
    for (auto &use : uses) use.first -= module->base + 1;
    return lines_of(*module).local_name(body - 1 - module->base, frame, at, size, uses);
}

std::string Modules::short_path(const std::string &path) {
    if (!paths_known) {
        std::set<std::string> all;
        for (Module &module : modules)
            if (module.is_hooked) all.merge(lines_of(module).paths());
        shorter = text::short_paths(all);
        paths_known = true;
    }
    auto known = shorter.find(path);
    return known == shorter.end() ? path : known->second;
}

const Frames &Modules::frames(u64 address) {
    auto known = known_frames.find(address);
    return known != known_frames.end() ? known->second : known_frames[address] = found_frames(address);
}

Frames Modules::found_frames(u64 address) {
    Module *module = of(address);
    Frames found;
    if (!module || !module->is_hooked) return found;
    for (const dwarf::Frame &one : lines_of(*module).frames(address - 1 - module->base)) {
        std::string path = text::fitting(text::plain(short_path(one.path)), text::MOST_PLACE_BYTES);
        found.push_back({text::function_name(one.function), path + ":" + std::to_string(one.line),
                         text::in_library(one.path), one.path});
    }
    return found;
}

// Whether a place is in a program or library with hooks and no lines at all. In one with lines, code without is the
// recorder's.
bool Modules::is_bare(u64 address) {
    Module *module = of(address);
    return module && module->is_hooked && lines_of(*module).none();
}

// The one frame of a place without a line: the function by its symbol, the program or library, and where in it.
Frames Modules::without_lines(u64 address) {
    Module *module = of(address);
    if (!module) return {};
    u64 place = address - 1 - module->base;
    const elf::Symbol *found = elf::Symbols::at(symbols_of(*module).functions, place);
    std::string where = text::plain(text::last_part(module->path)) + "+" + in_hexadecimal(place);
    return {{found ? text::function_name(found->name) : "", where, false, ""}};
}

// All frames of a place in a call, the innermost first. The outermost call was made by code without hooks.
Frames Modules::stack(u64 pc, u32 number) {
    u64 body = file.call(number).body;
    Module *module = of(pc);
    Frames found = frames(pc);
    if (found.empty()) found = frames(body);
    if (found.empty()) found = without_lines((module && module->is_hooked) || !number ? pc : body);
    while (number) {
        u64 site = file.call(number).site;
        number = std::min(file.call(number).parent, number - 1);
        const Frames &here = frames(site);
        if (!here.empty()) found.insert(found.end(), here.begin(), here.end());
        else if (number && is_bare(site))
            for (Frame &one : without_lines(site)) found.push_back(one);
    }
    return found;
}

// The frames that are written: those of the program's own code, or else all.
const Frames &Modules::ordered_stack(u64 pc, u32 call) {
    auto known = known_stacks.find({pc, call});
    if (known != known_stacks.end()) return known->second;
    Frames found = stack(pc, call);
    auto is_own = [](const Frame &frame) { return !frame.in_library; };
    auto end = std::stable_partition(found.begin(), found.end(), is_own);
    if (end != found.begin()) found.erase(end, found.end());
    if (found.size() > MOST_FRAMES) found.resize(MOST_FRAMES);
    return known_stacks[{pc, call}] = std::move(found);
}

const std::string &Modules::place(u64 pc, u32 call) {
    static const std::string none_known = "?";
    const Frames &found = ordered_stack(pc, call);
    return found.empty() ? none_known : found[0].place;
}

// Libraries that need no hooks: those of C and C++, whose functions the recorder knows, and those of compilers. The
// last four convert letters for the C library.
static const char *const KNOWN_LIBRARIES[] = {
    "ld-linux",   "linux-vdso", "libc.",      "libm.",     "libpthread.", "libdl.",   "librt.",
    "libutil.",   "libresolv.", "libnss_",    "libanl.",   "libcrypt.",   "libnsl.",  "libmvec.",
    "libstdc++.", "libc++.",    "libc++abi.", "libgcc_s.", "libunwind.",  "libgomp.", "libatomic.",
    "libubsan.",  "UTF-16.",    "UTF-32.",    "ISO8859",   "UNICODE.",
};

static bool is_known(const std::string &library, const std::vector<std::string> &trusted) {
    auto begins = [&library](const std::string &name) { return !name.empty() && library.rfind(name, 0) == 0; };
    return std::any_of(std::begin(KNOWN_LIBRARIES), std::end(KNOWN_LIBRARIES), begins) ||
        std::any_of(trusted.begin(), trusted.end(), begins);
}

std::vector<std::string> Modules::unknown_libraries(const std::vector<std::string> &trusted) const {
    std::vector<std::string> found;
    for (const Module &module : modules) {
        std::string name = text::plain(text::last_part(module.path));
        if (!module.is_program && !name.empty() && !is_known(name, trusted) && !elf::has_hooks(module.path))
            found.push_back(name);
    }
    return found;
}

std::vector<std::string> Modules::bare_objects() const {
    std::vector<std::string> found;
    for (const Module &module : modules)
        if (module.is_program || module.is_hooked)
            for (const std::string &name : elf::bare_objects(module.path)) found.push_back(text::plain(name));
    return found;
}

static bool ends_in(const std::string &path, const std::string &file) {
    if (path.size() <= file.size()) return path == file;
    size_t start = path.size() - file.size();
    return path[start - 1] == '/' && path.compare(start, file.size(), file) == 0;
}

bool Modules::is_in(u64 pc, u32 call, const std::vector<std::string> &files) {
    const Frames &found = ordered_stack(pc, call);
    return !found.empty() &&
        std::any_of(files.begin(), files.end(), [&](auto &file) { return ends_in(found[0].path, file); });
}

std::string Modules::location(u64 pc, u32 call, size_t most, const std::string &inside) {
    const Frames &found = ordered_stack(pc, call);
    if (found.empty() || !most) return place(pc, call) + (inside == "try" ? " < try" : "");
    std::string whole = joined(found[0].place, " < ", joined(inside, " in ", found[0].function));
    for (size_t k = 1; k < std::min(most, found.size()); k++)
        whole += " < " + joined(found[k].function, " ", found[k].place);
    return whole;
}

}
