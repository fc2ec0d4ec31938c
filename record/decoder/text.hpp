// Names as a trace has them: what is cut, replaced and left out.
#pragma once
#include <cstdint>
#include <map>
#include <set>
#include <string>
#include <vector>

namespace text {

constexpr size_t MOST_NAME_BYTES = 255, MOST_FUNCTION_BYTES = 80, MOST_PLACE_BYTES = 160;

// A name that is too long is cut, before a byte that begins a character, and a number of the whole name is added.
std::string fitting(const std::string &name, size_t most = MOST_NAME_BYTES);
// A name that can be a part of a line of a trace.
std::string plain(std::string name);
// A path without `.`, `..` and empty parts.
std::string normal(const std::string &path);
// A part of a name without the arguments of its template.
std::string without_template(const std::string &name);
std::string function_name(const std::string &name);
// A function that C++ writes in full, without its result, its parameters, and what is in angles or braces.
std::string without_parameters(std::string name);
// Such a function without the scopes that clang makes for lambdas, and without parameters of functions around it.
std::string without_lambdas(const std::string &name);
// The lock of a critical section of OpenMP that has a name: `omp.critical:NAME`; clang puts `.var` after it.
std::string with_section(const std::string &name);
// Whether a source is of the library of C++, or of that or Rust's.
bool in_cxx_library(const std::string &path);
bool in_library(const std::string &path);
// For each path its shortest end that no other path ends in.
std::map<std::string, std::string> short_paths(const std::set<std::string> &paths);
std::string last_part(const std::string &path);

}
