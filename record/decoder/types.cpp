#include "types.hpp"
#include "text.hpp"
#include <algorithm>
#include <cstdlib>
#include <cstring>
#include <iterator>
#include <map>
#include <tuple>
#include <vector>

namespace types {

namespace {

// Members in each other beyond this number are not looked into.
constexpr int MOST_DEPTH = 64;
// Classes beyond this number are not looked into for one name.
constexpr int MOST_STEPS = 1000;
// Types of the libraries that a user sees as one object.
const char *const WHOLE[] = {
    "pthread_mutex_t",
    "pthread_cond_t",
    "pthread_rwlock_t",
    "pthread_barrier_t",
    "pthread_spinlock_t",
    "pthread_once_t",
    "sem_t",
    "mtx_t",
    "cnd_t",
    "once_flag",
    "mutex",
    "recursive_mutex",
    "timed_mutex",
    "shared_mutex",
    "recursive_timed_mutex",
    "shared_timed_mutex",
    "condition_variable",
    "condition_variable_any",
};
// Members of the library of C++ that only wrap another one.
const char *const WRAPPERS[] = {
    "_M_impl", "_M_i", "_M_base", "_M_b", "_M_storage", "_M_t", "_M_head_impl", "_M_func", "__data",
};

template <size_t N> bool is_one_of(const char *const (&names)[N], const char *name) {
    return name &&
        std::any_of(std::begin(names), std::end(names), [name](const char *one) { return !strcmp(one, name); });
}

bool is_plain_name(int tag) {
    return tag == DW_TAG_typedef || tag == DW_TAG_const_type || tag == DW_TAG_volatile_type ||
        tag == DW_TAG_atomic_type || tag == DW_TAG_restrict_type;
}

std::optional<Dwarf_Die> type_named_by(Dwarf_Die die) { return referred(die, DW_AT_type); }

bool is_of_classes(int tag) {
    return tag == DW_TAG_structure_type || tag == DW_TAG_class_type || tag == DW_TAG_union_type;
}

// What is left to find: bytes from `offset` on in a type.
struct Search {
    uint64_t offset, size;
    std::string path;
    int depth = 0, steps = 0;

    bool enter(Dwarf_Die type);
    void enter_array(Dwarf_Die type);
    std::optional<uint64_t> start_of(Dwarf_Die &child) const;
    bool enter_member(Dwarf_Die type);
    bool enter_base(Dwarf_Die base);
    bool enter_bits(Dwarf_Die type);
    bool has(uint64_t start, uint64_t length) const { return start <= offset && offset + size <= start + length; }
};

// The type behind names for it; nothing if one of the names is that of a whole object.
std::optional<Dwarf_Die> inner_type(Dwarf_Die die) {
    std::optional<Dwarf_Die> type = type_named_by(die);
    for (int names = 0; type && names < MOST_DEPTH; names++) {
        if (is_one_of(WHOLE, dwarf_diename(&*type))) return std::nullopt;
        if (!is_plain_name(dwarf_tag(&*type))) return type;
        type = type_named_by(*type);
    }
    return std::nullopt;
}

// The number of elements of one dimension; 0 if that is not known.
uint64_t count_of(Dwarf_Die range) {
    std::optional<uint64_t> count = number_of(range, DW_AT_count), last = number_of(range, DW_AT_upper_bound);
    return count ? *count : last ? *last + 1 : 0;
}

// An array of arrays has several dimensions: an element of the first is an array of the others.
void Search::enter_array(Dwarf_Die type) {
    std::optional<Dwarf_Die> element = type_of(type);
    uint64_t each = element ? size_of(*element) : 0;
    std::vector<uint64_t> counts;
    Dwarf_Die child;
    for (int answer = dwarf_child(&type, &child); answer == 0; answer = dwarf_siblingof(&child, &child))
        if (dwarf_tag(&child) == DW_TAG_subrange_type) counts.push_back(count_of(child));
    if (!each || counts.empty()) return;
    for (size_t k = 0; k < counts.size(); k++) {
        uint64_t length = each;
        for (size_t inner = k + 1; inner < counts.size(); inner++) length *= counts[inner];
        if (!length || offset % length + size > length) return;
        path += "[" + std::to_string(offset / length) + "]";
        offset %= length;
    }
    if (std::optional<Dwarf_Die> inside = inner_type(type)) enter(*inside);
}

// The first bit of a bit-field in its class. DWARF 3 and clang count it from the highest bit of the field's type.
std::optional<uint64_t> first_bit(Dwarf_Die field, uint64_t bits) {
    if (std::optional<uint64_t> start = number_of(field, DW_AT_data_bit_offset)) return start;
    std::optional<uint64_t> above = number_of(field, DW_AT_bit_offset), bytes = number_of(field, DW_AT_byte_size);
    std::optional<Dwarf_Die> type = type_of(field);
    if (!bytes && type) bytes = size_of(*type);
    if (!above || !bytes || 8 * *bytes < *above + bits) return std::nullopt;
    return 8 * (number_of(field, DW_AT_data_member_location).value_or(0) + *bytes) - *above - bits;
}

// Bit-fields in the bytes, if there is nothing else in them.
bool Search::enter_bits(Dwarf_Die type) {
    std::string names;
    Dwarf_Die child;
    for (int answer = dwarf_child(&type, &child); answer == 0; answer = dwarf_siblingof(&child, &child)) {
        std::optional<uint64_t> bits = number_of(child, DW_AT_bit_size), start;
        if (bits) start = first_bit(child, *bits);
        const char *name = dwarf_diename(&child);
        if (dwarf_tag(&child) != DW_TAG_member || !bits || !start || !name) continue;
        if (*start < 8 * (offset + size) && 8 * offset < *start + *bits)
            names += (names.empty() ? "." : "/") + std::string(name);
    }
    path += names;
    if (!names.empty()) offset = 0;
    return !names.empty();
}

// Whether an entry is an array whose first number of elements is not known, or none.
bool is_open_array(Dwarf_Die type) {
    Dwarf_Die child;
    for (int answer = dwarf_child(&type, &child); answer == 0; answer = dwarf_siblingof(&child, &child))
        if (dwarf_tag(&child) == DW_TAG_subrange_type) return dwarf_tag(&type) == DW_TAG_array_type && !count_of(child);
    return false;
}

// Whether a member is the last one of its class, and an array without a length: it goes on to the end of the block.
bool is_open(Dwarf_Die member) {
    std::optional<Dwarf_Die> type = type_of(member);
    if (dwarf_tag(&member) != DW_TAG_member || !type || !is_open_array(*type)) return false;
    Dwarf_Die next;
    for (int answer = dwarf_siblingof(&member, &next); answer == 0; answer = dwarf_siblingof(&next, &next))
        if (dwarf_tag(&next) == DW_TAG_member) return false;
    return true;
}

// Where a member or base begins, if it has all bytes.
std::optional<uint64_t> Search::start_of(Dwarf_Die &child) const {
    int tag = dwarf_tag(&child);
    if ((tag != DW_TAG_member && tag != DW_TAG_inheritance) || number_of(child, DW_AT_bit_size)) return std::nullopt;
    uint64_t start = number_of(child, DW_AT_data_member_location).value_or(0);
    std::optional<Dwarf_Die> of = type_of(child);
    bool is_static = dwarf_hasattr(&child, DW_AT_external) || dwarf_hasattr(&child, DW_AT_declaration);
    // A virtual base is where only the object itself knows.
    if (is_static || !of || (tag == DW_TAG_inheritance && dwarf_hasattr(&child, DW_AT_virtuality))) return std::nullopt;
    return has(start, size_of(*of)) || (start <= offset && is_open(child)) ? std::optional(start) : std::nullopt;
}

// Goes into a base if one of its members has the bytes. The size of a base counts its own virtual bases too, so its last
// bytes may be those of the class.
bool Search::enter_base(Dwarf_Die base) {
    Search inner = *this;
    inner.offset -= start_of(base).value_or(0);
    std::optional<Dwarf_Die> type = inner_type(base);
    bool is_there = type && inner.enter(*type);
    if (is_there) *this = inner;
    steps = inner.steps;
    return is_there;
}

// Goes into the member or base that has all bytes, if there is one: of a class the smallest, since a member may lie in
// the last bytes of a base, and of a union the first.
bool Search::enter_member(Dwarf_Die type) {
    Dwarf_Die child;
    std::vector<std::pair<uint64_t, Dwarf_Die>> found;
    for (int answer = dwarf_child(&type, &child); answer == 0; answer = dwarf_siblingof(&child, &child)) {
        if (!start_of(child)) continue;
        bool is_base = dwarf_tag(&child) == DW_TAG_inheritance, is_first = dwarf_tag(&type) == DW_TAG_union_type;
        found.emplace_back(is_first ? 0 : 2 * size_of(*type_of(child)) + is_base, child);
    }
    std::stable_sort(found.begin(), found.end(), [](auto &one, auto &other) { return one.first < other.first; });
    for (auto &one : found) {
        if (dwarf_tag(&one.second) == DW_TAG_inheritance) {
            if (enter_base(one.second)) return true;
            continue;
        }
        const char *name = dwarf_diename(&one.second);
        if (name && !is_one_of(WRAPPERS, name)) path += std::string(".") + name;
        offset -= start_of(one.second).value_or(0);
        if (std::optional<Dwarf_Die> inside = inner_type(one.second)) enter(*inside);
        return true;
    }
    return false;
}

// Memory for an object of the first parameter of the template, as containers have it.
std::optional<Dwarf_Die> buffer_of(Dwarf_Die type) {
    const char *name = dwarf_diename(&type);
    if (!name || (strncmp(name, "__aligned_buffer<", 17) != 0 && strncmp(name, "__aligned_membuf<", 17) != 0))
        return std::nullopt;
    std::optional<Dwarf_Die> parameter = parameter_of(type);
    return parameter ? inner_type(*parameter) : std::nullopt;
}

// Whether it is no class, or one with a member that has the bytes.
bool Search::enter(Dwarf_Die type) {
    if (++depth > MOST_DEPTH || ++steps > MOST_STEPS || is_one_of(WHOLE, dwarf_diename(&type))) return true;
    int tag = dwarf_tag(&type);
    if (tag == DW_TAG_array_type) return enter_array(type), true;
    if (!is_of_classes(tag)) return true;
    if (std::optional<Dwarf_Die> inside = buffer_of(type)) return enter(*inside);
    return enter_member(type) || enter_bits(type);
}

}

std::optional<Dwarf_Die> referred(Dwarf_Die die, unsigned attribute) {
    Dwarf_Attribute found;
    Dwarf_Die other;
    if (!dwarf_attr_integrate(&die, attribute, &found) || !dwarf_formref_die(&found, &other)) return std::nullopt;
    return other;
}

bool is_class(Dwarf_Die die) { return is_of_classes(dwarf_tag(&die)); }

// Whether an entry is a type, and not something that has one.
static bool is_type(Dwarf_Die die) {
    int tag = dwarf_tag(&die);
    return is_of_classes(tag) || is_plain_name(tag) || tag == DW_TAG_base_type || tag == DW_TAG_pointer_type ||
        tag == DW_TAG_enumeration_type || tag == DW_TAG_array_type;
}

std::optional<Dwarf_Die> object_type(Dwarf_Die die) {
    return is_type(die) && !is_plain_name(dwarf_tag(&die)) ? die : type_of(die);
}

std::optional<Dwarf_Die> type_of(Dwarf_Die die) {
    std::optional<Dwarf_Die> type = type_named_by(die);
    for (int names = 0; type && is_plain_name(dwarf_tag(&*type)) && names < MOST_DEPTH; names++)
        type = type_named_by(*type);
    return type;
}

uint64_t size_of(Dwarf_Die type) {
    Dwarf_Word size = 0;
    return dwarf_aggregate_size(&type, &size) == 0 ? size : 0;
}

std::optional<uint64_t> number_of(Dwarf_Die die, unsigned attribute) {
    Dwarf_Attribute found;
    Dwarf_Word value = 0;
    if (!dwarf_attr_integrate(&die, attribute, &found) || dwarf_formudata(&found, &value) != 0) return std::nullopt;
    return value;
}

Dwarf_Die declared(Dwarf_Die die) {
    for (unsigned attribute : {DW_AT_abstract_origin, DW_AT_specification}) {
        Dwarf_Attribute found;
        Dwarf_Die other;
        if (dwarf_attr(&die, attribute, &found) && dwarf_formref_die(&found, &other)) die = other;
    }
    return die;
}

std::optional<Dwarf_Die> parameter_of(Dwarf_Die type) {
    Dwarf_Die child;
    for (int answer = dwarf_child(&type, &child); answer == 0; answer = dwarf_siblingof(&child, &child))
        if (dwarf_tag(&child) == DW_TAG_template_type_parameter) return child;
    return std::nullopt;
}

// A pointer has the name of what it points to, and what std::make_shared allocates that of the object in it. A type
// without a name has that of its typedef.
static std::string label_in(Dwarf_Die die, int depth) {
    std::string after, other;
    std::optional<Dwarf_Die> type = is_type(die) ? die : type_named_by(die);
    for (int names = 0; type && names < MOST_DEPTH; names++) {
        int tag = dwarf_tag(&*type);
        const char *name = dwarf_diename(&*type);
        bool is_shared = name && strncmp(name, "_Sp_counted_ptr_inplace<", 24) == 0;
        std::optional<Dwarf_Die> held = is_shared && depth < MOST_DEPTH ? parameter_of(*type) : std::nullopt;
        if (held) return label_in(*held, depth + 1) + after;
        if (is_plain_name(tag)) {
            if (name) other = name;
        } else if (name) {
            return text::without_template(name) + after;
        } else if (tag == DW_TAG_pointer_type) {
            after += "*";
            other.clear();
        } else {
            return other.empty() ? "" : other + after;
        }
        type = type_named_by(*type);
    }
    return "";
}

std::string label_of(Dwarf_Die die) { return label_in(die, 0); }

bool has_open_end(Dwarf_Die type) {
    Dwarf_Die child;
    for (int answer = dwarf_child(&type, &child); answer == 0; answer = dwarf_siblingof(&child, &child))
        if (dwarf_tag(&type) == DW_TAG_structure_type && is_open(child)) return true;
    return false;
}

static std::string found_path(Dwarf_Die die, uint64_t offset, uint64_t size) {
    Search search{offset, std::max<uint64_t>(size, 1), ""};
    bool is_whole = is_type(die) && is_one_of(WHOLE, dwarf_diename(&die));
    bool is_inner = is_type(die) && !is_plain_name(dwarf_tag(&die));
    std::optional<Dwarf_Die> type = is_inner ? die : inner_type(die);
    if (type && !is_whole) search.enter(*type);
    return search.offset ? search.path + "+" + std::to_string(search.offset) : search.path;
}

// Many blocks have one type.
std::string path_in(Dwarf_Die die, uint64_t offset, uint64_t size) {
    static std::map<std::tuple<const void *, uint64_t, uint64_t>, std::string> known;
    auto made = known.emplace(std::make_tuple(die.addr, offset, size), "");
    if (made.second) made.first->second = found_path(die, offset, size);
    return made.first->second;
}

}
