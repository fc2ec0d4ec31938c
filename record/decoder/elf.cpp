#include "elf.hpp"
#include <algorithm>
#include <cstdlib>
#include <cxxabi.h>
#include <fcntl.h>
#include <gelf.h>
#include <tuple>
#include <unistd.h>
#include <unordered_map>

namespace elf {

std::string demangled(const std::string &name) {
    if (name.rfind("_Z", 0) != 0) return name;
    int status = 0;
    char *text = abi::__cxa_demangle(name.c_str(), nullptr, nullptr, &status);
    if (!text) return name;
    std::string whole = text;
    free(text);
    return whole;
}

namespace {

struct Found {
    uint64_t start;
    std::string name;
    uint64_t size;
    int kind;
    bool code;
};

// A file that libelf reads; closed at its end.
class File {
public:
    explicit File(const std::string &path) : number(open(path.c_str(), O_RDONLY | O_CLOEXEC)) {
        elf_version(EV_CURRENT);
        if (number >= 0) elf = elf_begin(number, ELF_C_READ_MMAP, nullptr);
    }
    ~File() {
        if (elf) elf_end(elf);
        if (number >= 0) close(number);
    }
    File(const File &) = delete;
    File &operator=(const File &) = delete;
    Elf *elf = nullptr;

private:
    int number;
};

// The last section of a kind, with its header; none if the file has no such section.
Elf_Scn *section_of(Elf *elf, uint32_t kind, GElf_Shdr &header) {
    Elf_Scn *last = nullptr;
    GElf_Shdr one;
    for (Elf_Scn *section = elf_nextscn(elf, nullptr); section; section = elf_nextscn(elf, section)) {
        if (gelf_getshdr(section, &one) && one.sh_type == kind) last = section, header = one;
    }
    return last;
}

// Fills in what is known of a symbol that the file defines. False if the file does not define it.
bool read_symbol(Elf *elf, const GElf_Sym &symbol, size_t names, Found &found) {
    if (!symbol.st_shndx || symbol.st_shndx >= SHN_LORESERVE || !symbol.st_size) return false;
    GElf_Shdr section;
    if (!gelf_getshdr(elf_getscn(elf, symbol.st_shndx), &section) || !(section.sh_flags & SHF_ALLOC)) return false;
    const char *name = elf_strptr(elf, names, symbol.st_name);
    if (!name) return false;
    std::string whole = name;
    bool code = section.sh_flags & SHF_EXECINSTR;
    found = {symbol.st_value, whole.substr(0, whole.find('@')), symbol.st_size, GELF_ST_TYPE(symbol.st_info), code};
    return true;
}

// The symbols that the file defines. A stripped file has those of its dynamic table.
std::vector<Found> raw_symbols(const std::string &path) {
    File file(path);
    GElf_Shdr header;
    std::vector<Found> found;
    Elf_Scn *table = file.elf ? section_of(file.elf, SHT_SYMTAB, header) : nullptr;
    if (file.elf && !table) table = section_of(file.elf, SHT_DYNSYM, header);
    Elf_Data *data = table ? elf_getdata(table, nullptr) : nullptr;
    if (!data || !header.sh_entsize) return found;
    GElf_Sym symbol;
    for (int k = 0; gelf_getsym(data, k, &symbol); k++) {
        Found one;
        if (read_symbol(file.elf, symbol, header.sh_link, one)) found.push_back(std::move(one));
    }
    return found;
}

// Calls what is given for each entry of the tables of symbols, until that says that it has found what it looks for.
template <class Do> void each_symbol(Elf *elf, Do is_found) {
    for (uint32_t kind : {SHT_DYNSYM, SHT_SYMTAB}) {
        GElf_Shdr header;
        Elf_Scn *table = elf ? section_of(elf, kind, header) : nullptr;
        Elf_Data *data = table ? elf_getdata(table, nullptr) : nullptr;
        GElf_Sym symbol;
        for (int k = 0; data && header.sh_entsize && gelf_getsym(data, k, &symbol); k++) {
            const char *name = elf_strptr(elf, header.sh_link, symbol.st_name);
            if (name && is_found(symbol, std::string(name))) return;
        }
    }
}

// The bytes of a symbol in the file.
std::string content_of(Elf *elf, const GElf_Sym &symbol) {
    Elf_Scn *section = elf_getscn(elf, symbol.st_shndx);
    GElf_Shdr header;
    Elf_Data *data = section && gelf_getshdr(section, &header) ? elf_getdata(section, nullptr) : nullptr;
    if (!data || !data->d_buf || symbol.st_value < header.sh_addr) return "";
    uint64_t start = symbol.st_value - header.sh_addr;
    if (start > data->d_size || symbol.st_size > data->d_size - start) return "";
    return std::string(static_cast<const char *>(data->d_buf) + start, symbol.st_size);
}

std::vector<Symbol> table_with(std::vector<Found> found) {
    std::sort(found.begin(), found.end(), [](const Found &a, const Found &b) {
        return std::tie(a.start, a.name, a.size) < std::tie(b.start, b.name, b.size);
    });
    std::vector<Symbol> table;
    for (const Found &one : found) {
        if (table.empty() || table.back().start != one.start)
            table.push_back({one.start, one.size, demangled(one.name)});
    }
    return table;
}

void tell_apart(std::vector<Symbol> &variables) {
    std::unordered_map<std::string, int> count;
    for (const Symbol &one : variables) count[one.name]++;
    for (Symbol &one : variables) {
        if (count[one.name] < 2) continue;
        char start[32];
        snprintf(start, sizeof start, "@%llx", static_cast<unsigned long long>(one.start));
        one.name += start;
    }
}

}

bool has_hooks(const std::string &path) {
    File file(path);
    bool found = false;
    each_symbol(file.elf, [&](const GElf_Sym &, const std::string &name) {
        return found = found || name.rfind("__tsan_init", 0) == 0;
    });
    return found;
}

// record/cc puts the names into a text of this name, each before a line's end.
std::vector<std::string> bare_objects(const std::string &path) {
    File file(path);
    std::string text;
    each_symbol(file.elf, [&](const GElf_Sym &symbol, const std::string &name) {
        if (name != "racebench_bare_objects" || !symbol.st_shndx) return false;
        text = content_of(file.elf, symbol);
        return true;
    });
    std::vector<std::string> names;
    for (size_t at = 0, end; (end = text.find('\n', at)) != std::string::npos; at = end + 1)
        names.push_back(text.substr(at, end - at));
    return names;
}

OwnVariables own_variables(const std::string &path) {
    File file(path);
    GElf_Ehdr head;
    size_t count = 0;
    if (!file.elf || !gelf_getehdr(file.elf, &head) || head.e_machine != EM_X86_64) return {0, 0};
    if (elf_getphdrnum(file.elf, &count) != 0) return {0, 0};
    GElf_Phdr part;
    for (size_t k = 0; k < count; k++) {
        if (!gelf_getphdr(file.elf, static_cast<int>(k), &part) || part.p_type != PT_TLS) continue;
        uint64_t align = part.p_align ? part.p_align : 1, size = part.p_memsz + align - 1;
        return {size < part.p_memsz ? 0 : size / align * align, part.p_vaddr};
    }
    return {0, 0};
}

Symbols::Symbols(const std::string &path) {
    std::vector<Found> data, code;
    for (Found &one : raw_symbols(path)) {
        bool variable = one.kind == STT_NOTYPE || one.kind == STT_OBJECT || one.kind == STT_COMMON;
        if (variable && !one.code) data.push_back(one);
        else if (one.kind == STT_FUNC) code.push_back(one);
    }
    variables = table_with(std::move(data));
    functions = table_with(std::move(code));
    tell_apart(variables);
}

const Symbol *Symbols::at(const std::vector<Symbol> &table, uint64_t place) {
    auto after = std::upper_bound(table.begin(), table.end(), place,
                                  [](uint64_t at, const Symbol &one) { return at < one.start; });
    if (after == table.begin()) return nullptr;
    const Symbol &one = *std::prev(after);
    return place < one.start + one.size ? &one : nullptr;
}

}
