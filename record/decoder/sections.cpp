#include "sections.hpp"
#include <dwarf.h>
#include <libelf.h>
#include <map>
#include <vector>

namespace sections {

namespace {

using Bytes = std::pair<const uint8_t *, const uint8_t *>;
using Table = std::vector<std::pair<std::string, Bytes>>;

// The sections of debug information of a file, which libdw has decompressed. Their names have no `.` and no `z`.
Table sections_of(Dwarf *debug) {
    Table found;
    Elf *elf = debug ? dwarf_getelf(debug) : nullptr;
    size_t names = 0;
    if (!elf || elf_getshdrstrndx(elf, &names) != 0) return found;
    for (Elf_Scn *section = elf_nextscn(elf, nullptr); section; section = elf_nextscn(elf, section)) {
        Elf64_Shdr *header = elf64_getshdr(section);
        const char *name = header ? elf_strptr(elf, names, header->sh_name) : nullptr;
        std::string whole = name ? name : "";
        size_t start = whole.find("debug_");
        if (start == std::string::npos || start > 2) continue;
        Elf_Data *data = elf_getdata(section, nullptr);
        auto bytes = data ? static_cast<const uint8_t *>(data->d_buf) : nullptr;
        if (bytes) found.push_back({whole.substr(start), {bytes, bytes + data->d_size}});
    }
    return found;
}

const Table &known_sections(Dwarf *debug) {
    static std::map<Dwarf *, Table> known;
    auto made = known.emplace(debug, Table{});
    if (made.second) made.first->second = sections_of(debug);
    return made.first->second;
}

}

bytes::Reader section(Dwarf *debug, const std::string &name) {
    for (auto &one : known_sections(debug))
        if (one.first == name) return {one.second.first, one.second.second};
    return {nullptr, nullptr};
}

bytes::Reader from_entry(const Dwarf_Die &die, std::string &ending) {
    auto at = static_cast<const uint8_t *>(die.addr);
    for (auto &one : known_sections(dwarf_cu_getdwarf(die.cu))) {
        if (at < one.second.first || at >= one.second.second) continue;
        size_t dot = one.first.find('.');
        if (dot != std::string::npos) ending = one.first.substr(dot);
        return {at, one.second.second};
    }
    return {nullptr, nullptr};
}

int fixed_size(unsigned form, const Sizes &sizes) {
    switch (form) {
    case DW_FORM_flag_present:
    case DW_FORM_implicit_const: return 0;
    case DW_FORM_data1:
    case DW_FORM_ref1:
    case DW_FORM_flag:
    case DW_FORM_strx1:
    case DW_FORM_addrx1: return 1;
    case DW_FORM_data2:
    case DW_FORM_ref2:
    case DW_FORM_strx2:
    case DW_FORM_addrx2: return 2;
    case DW_FORM_strx3:
    case DW_FORM_addrx3: return 3;
    case DW_FORM_data4:
    case DW_FORM_ref4:
    case DW_FORM_strx4:
    case DW_FORM_addrx4:
    case DW_FORM_ref_sup4: return 4;
    case DW_FORM_data8:
    case DW_FORM_ref8:
    case DW_FORM_ref_sig8:
    case DW_FORM_ref_sup8: return 8;
    case DW_FORM_data16: return 16;
    case DW_FORM_addr: return static_cast<int>(sizes.address);
    case DW_FORM_ref_addr: return static_cast<int>(sizes.version < 3 ? sizes.address : sizes.offset);
    case DW_FORM_strp:
    case DW_FORM_line_strp:
    case DW_FORM_sec_offset:
    case DW_FORM_strp_sup:
    case DW_FORM_GNU_ref_alt:
    case DW_FORM_GNU_strp_alt: return static_cast<int>(sizes.offset);
    default: return -1;
    }
}

bool skip(bytes::Reader &reader, unsigned form, const Sizes &sizes) {
    int size = fixed_size(form, sizes);
    if (size >= 0) return reader.skip(static_cast<uint64_t>(size)), true;
    switch (form) {
    case DW_FORM_string: return reader.text(), true;
    case DW_FORM_block1: return reader.skip(reader.number(1)), true;
    case DW_FORM_block2: return reader.skip(reader.number(2)), true;
    case DW_FORM_block4: return reader.skip(reader.number(4)), true;
    case DW_FORM_block:
    case DW_FORM_exprloc: return reader.skip(reader.leb()), true;
    case DW_FORM_sdata:
    case DW_FORM_udata:
    case DW_FORM_ref_udata:
    case DW_FORM_strx:
    case DW_FORM_addrx:
    case DW_FORM_loclistx:
    case DW_FORM_rnglistx:
    case DW_FORM_GNU_addr_index:
    case DW_FORM_GNU_str_index: return reader.leb(), true;
    case DW_FORM_indirect: {
        unsigned inner = static_cast<unsigned>(reader.leb());
        return inner != DW_FORM_indirect && inner != DW_FORM_implicit_const && skip(reader, inner, sizes);
    }
    default: return false;
    }
}

}
