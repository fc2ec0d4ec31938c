#include "text.hpp"
#include "elf.hpp"
#include <algorithm>
#include <cstdio>
#include <unordered_map>
#include <zlib.h>

namespace text {

std::string fitting(const std::string &name, size_t most) {
    if (name.size() <= most) return name;
    size_t end = most - 9;
    while (end && (name[end] & 0xc0) == 0x80) end--;
    char number[16];
    auto bytes = reinterpret_cast<const Bytef *>(name.data());
    snprintf(number, sizeof number, "~%08lx", crc32(0, bytes, static_cast<uInt>(name.size())));
    return name.substr(0, end) + number;
}

std::string plain(std::string name) {
    for (char &c : name) {
        unsigned char byte = static_cast<unsigned char>(c);
        if (byte < 32 || byte == 127) c = '?';
        else if (c == '|') c = '!';
    }
    return name;
}

static std::vector<std::string> parts_of(const std::string &path) {
    std::vector<std::string> parts;
    for (size_t at = 0; at <= path.size();) {
        size_t end = path.find('/', at);
        if (end == std::string::npos) end = path.size();
        parts.push_back(path.substr(at, end - at));
        at = end + 1;
    }
    return parts;
}

std::string normal(const std::string &path) {
    bool first = !path.empty() && path[0] == '/';
    std::vector<std::string> kept;
    for (const std::string &part : parts_of(path)) {
        if (part == ".." && !kept.empty() && kept.back() != "..") kept.pop_back();
        else if (!part.empty() && part != "." && !(part == ".." && first)) kept.push_back(part);
    }
    std::string joined = first ? "/" : "";
    for (size_t k = 0; k < kept.size(); k++) joined += (k ? "/" : "") + kept[k];
    return joined;
}

static bool begins(const std::string &text, const char *beginning) { return text.rfind(beginning, 0) == 0; }

std::string without_template(const std::string &name) {
    if (begins(name, "<lambda")) return "<lambda>";
    if (begins(name, "operator()")) return "operator()";
    return begins(name, "operator") || begins(name, "<") ? name : name.substr(0, name.find('<'));
}

// Where the parameters of a function begin: at the bracket of its last one.
static size_t parameters_of(const std::string &name) {
    int depth = 0;
    for (size_t end = name.rfind(')'), k = end + 1; end != std::string::npos && k-- > 0;) {
        depth += name[k] == ')' ? 1 : name[k] == '(' ? -1 : 0;
        if (!depth) return k;
    }
    return name.size();
}

std::string without_parameters(std::string name) {
    static const std::string nameless = "(anonymous namespace)::";
    for (size_t at; (at = name.find(nameless)) != std::string::npos;) name.erase(at, nameless.size());
    std::string kept;
    int depth = 0;
    for (char c : name.substr(0, parameters_of(name))) {
        if (c == '{' && !depth) kept = kept.substr(0, kept.rfind("::"));
        if (c == '<' || c == '{') depth++;
        else if (c == '>' || c == '}') depth--;
        else if (!depth) kept = c == ' ' ? "" : kept + c;
    }
    return kept;
}

std::string without_lambdas(const std::string &name) {
    std::string kept;
    int depth = 0;
    for (size_t k = 0; k < name.size(); k++) {
        bool is_scope = !depth && name.compare(k, 4, "::$_") == 0;
        for (k += is_scope ? 4 : 0; is_scope && k < name.size() && name[k] >= '0' && name[k] <= '9';) k++;
        if (k == name.size()) break;
        bool is_operator = kept.size() >= 8 && kept.substr(kept.size() - 8) == "operator" && name[k + 1] == ')';
        if (name[k] == '(' && is_operator) kept += name.substr(k++, 2);
        else if (name[k] == '(') depth++;
        else if (name[k] == ')') depth--;
        else if (!depth) kept += name[k];
    }
    return kept;
}

// GCC makes a function of each region and task of OpenMP, and so does clang, which does not name the one around it.
static std::string with_region(const std::string &name) {
    size_t end = std::min(name.find("._omp_fn."), name.find("._omp_cpyfn."));
    if (begins(name, ".omp_")) return "(OpenMP)";
    if (end == std::string::npos) return name;
    std::string around = name.substr(0, end);
    size_t scope = around.rfind("::");
    if (scope != std::string::npos) around.erase(0, scope + 2);
    return (begins(around, "_Z") ? without_parameters(elf::demangled(around)) : around) + "(OpenMP)";
}

std::string function_name(const std::string &name) {
    std::string whole = plain(with_region(name));
    for (char &c : whole)
        if (c == ' ') c = '_';
    return fitting(whole, MOST_FUNCTION_BYTES);
}

std::string with_section(const std::string &name) {
    static const std::string before = ".gomp_critical_user_", after = ".var";
    if (name.rfind(before, 0) != 0) return name;
    std::string section = name.substr(before.size());
    bool has_end = section.size() >= after.size() && section.substr(section.size() - after.size()) == after;
    return "omp.critical:" + (has_end ? section.substr(0, section.size() - after.size()) : section);
}

bool in_cxx_library(const std::string &path) {
    size_t include = path.find("/include/");
    return include != std::string::npos && path.find("/c++/", include + 8) != std::string::npos;
}

// The sources of Rust's library are in `rustc/VERSION/library`, in `rustc-VERSION/library` or in `rustlib/src`.
static bool in_rust_library(const std::string &path) {
    size_t library = path.find("/library/");
    if (library == std::string::npos) return path.find("/rustlib/src/") != std::string::npos;
    std::vector<std::string> parts = parts_of(path.substr(0, library));
    bool is_version_in_rustc = parts.size() > 1 && parts[parts.size() - 2] == "rustc";
    return is_version_in_rustc || begins(parts.back(), "rustc-") || path.find("/rustlib/src/") != std::string::npos;
}

bool in_library(const std::string &path) { return in_cxx_library(path) || in_rust_library(path); }

// Where the ends of a path begin, the shortest first.
static std::vector<size_t> ends_of(const std::string &path) {
    std::vector<size_t> starts;
    for (size_t k = path.size(); k-- > 0;)
        if (path[k] == '/') starts.push_back(k + 1);
    if (path.empty() || path[0] != '/') starts.push_back(0);
    return starts;
}

std::map<std::string, std::string> short_paths(const std::set<std::string> &paths) {
    std::unordered_map<std::string, int> count;
    for (const std::string &path : paths)
        for (size_t start : ends_of(path)) count[path.substr(start)]++;
    std::map<std::string, std::string> found;
    for (const std::string &path : paths) {
        found[path] = path;
        for (size_t start : ends_of(path)) {
            if (count[path.substr(start)] != 1) continue;
            found[path] = path.substr(start);
            break;
        }
    }
    return found;
}

std::string last_part(const std::string &path) { return path.substr(path.rfind('/') + 1); }

}
