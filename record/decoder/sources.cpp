#include "sources.hpp"
#include <algorithm>
#include <dwarf.h>
#include "sections.hpp"

namespace sources {

namespace {

constexpr const char *NO_SOURCE = "???";

// A path or the name of a folder, and the number of the folder that it is in.
struct Source {
    std::string name;
    uint64_t folder = 0;
};

class Head {
public:
    // Reads the head of a table that begins here. The folder of the compiler is the first one before version 5.
    Head(Dwarf *debug, bytes::Reader reader, const char *compiled_in) : debug(debug), reader(reader) {
        is_whole = begin() && (sizes.version < 5 ? read_texts(compiled_in) : read_forms()) && !this->reader.is_short();
    }
    std::vector<std::string> paths() const {
        std::vector<std::string> found;
        if (sizes.version < 5) found.push_back(NO_SOURCE);
        for (const Source &one : sources) found.push_back(path(one));
        return found;
    }
    bool is_whole;

private:
    bool begin() {
        uint64_t length = reader.number(4), mark = 0xffffffff;
        sizes.offset = length == mark ? 8 : 4;
        if (length == mark) length = reader.number(8);
        if (length > reader.left()) return false;
        reader = {reader.place(), reader.place() + length};
        sizes.version = static_cast<int>(reader.number(2));
        if (sizes.version < 2 || sizes.version > 5) return false;
        if (sizes.version == 5) sizes.address = reader.number(1), reader.skip(1);
        reader.skip(sizes.offset + (sizes.version < 4 ? 1 : 2) + 3);
        uint64_t operations = reader.number(1);
        reader.skip(operations ? operations - 1 : 0);
        return !reader.is_short();
    }
    std::string path(const Source &one) const {
        const std::string &folder = folders[one.folder].name;
        return one.name[0] == '/' || folder.empty() ? one.name : folder + "/" + one.name;
    }
    // Texts one after another, as versions before 5 have them.
    bool read_texts(const char *compiled_in) {
        folders.push_back({compiled_in ? compiled_in : "", 0});
        for (std::string name; !(name = reader.text()).empty();) folders.push_back({name, 0});
        for (std::string name; !(name = reader.text()).empty();) {
            uint64_t folder = reader.leb();
            if (folder >= folders.size()) return false;
            sources.push_back({name, folder});
            reader.leb();
            reader.leb();
        }
        return true;
    }
    bool read_forms() {
        if (!read_list(folders) || !read_list(sources)) return false;
        for (const Source &one : sources)
            if (one.folder >= folders.size()) return false;
        return true;
    }
    // A list of version 5: its columns with their forms, and its rows.
    bool read_list(std::vector<Source> &to) {
        std::vector<std::pair<uint64_t, unsigned>> columns(reader.number(1));
        for (auto &column : columns) {
            column.first = reader.leb();
            column.second = static_cast<unsigned>(reader.leb());
        }
        uint64_t rows = reader.leb();
        if (rows > reader.left()) return false;
        for (uint64_t row = 0; row < rows && !reader.is_short(); row++) {
            to.emplace_back();
            for (auto &column : columns)
                if (!read_column(column.first, column.second, to.back())) return false;
        }
        return true;
    }
    bool read_column(uint64_t column, unsigned form, Source &to) {
        bytes::Reader value = reader;
        if (!sections::skip(reader, form, sizes)) return false;
        if (column == DW_LNCT_path) return read_path(value, form, to.name);
        if (column != DW_LNCT_directory_index) return true;
        if (form == DW_FORM_udata) to.folder = value.leb();
        else to.folder = value.number(static_cast<size_t>(std::max(sections::fixed_size(form, sizes), 0)));
        return form == DW_FORM_udata || form == DW_FORM_data1 || form == DW_FORM_data2;
    }
    bool read_path(bytes::Reader value, unsigned form, std::string &to) const {
        if (form == DW_FORM_string) return to = value.text(), !to.empty();
        if (form != DW_FORM_line_strp && form != DW_FORM_strp) return false;
        bytes::Reader texts = sections::section(debug, form == DW_FORM_strp ? "debug_str" : "debug_line_str");
        texts.skip(value.number(sizes.offset));
        return to = texts.text(), !to.empty();
    }
    Dwarf *debug;
    bytes::Reader reader;
    sections::Sizes sizes{8, 4, 0};
    std::vector<Source> folders, sources;
};

}

std::optional<std::vector<std::string>> paths_of(const Dwarf_Die &unit) {
    Dwarf_Die die = unit;
    Dwarf_Attribute attribute, folder;
    Dwarf_Word start = 0;
    Dwarf *debug = dwarf_cu_getdwarf(unit.cu);
    if (!dwarf_attr(&die, DW_AT_stmt_list, &attribute) || dwarf_formudata(&attribute, &start) != 0) return std::nullopt;
    bytes::Reader table = sections::section(debug, "debug_line");
    table.skip(start);
    if (!table.has_more()) return std::nullopt;
    Head head(debug, table, dwarf_formstring(dwarf_attr(&die, DW_AT_comp_dir, &folder)));
    return head.is_whole ? std::optional(head.paths()) : std::nullopt;
}

}
