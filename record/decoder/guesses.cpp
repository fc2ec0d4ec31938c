#include "guesses.hpp"
#include <algorithm>
#include <cctype>
#include <fstream>
#include <map>
#include <sys/stat.h>
#include <vector>

namespace guesses {

namespace {

// The most lines that a statement may have before and after the known one.
constexpr int MOST_LINES = 2;
constexpr size_t MOST_LINE_BYTES = 1000;
constexpr off_t MOST_FILE_BYTES = 1 << 24;
using Words = std::vector<std::string>;

// The debug information names any path: a device or a pipe is no source.
bool is_source(const std::string &path) {
    struct stat about;
    return stat(path.c_str(), &about) == 0 && S_ISREG(about.st_mode) && about.st_size <= MOST_FILE_BYTES;
}

const std::vector<std::string> &lines_of(const std::string &path) {
    static std::map<std::string, std::vector<std::string>> known;
    auto made = known.emplace(path, std::vector<std::string>{});
    std::vector<std::string> &lines = made.first->second;
    if (!made.second || !is_source(path)) return lines;
    std::ifstream file(path);
    for (std::string line; std::getline(file, line);) {
        size_t comment = line.find("//");
        lines.push_back(line.substr(0, std::min(comment, MOST_LINE_BYTES)));
    }
    return lines;
}

char last_of(const std::string &line) {
    size_t at = line.find_last_not_of(" \t\r");
    return at == std::string::npos ? ';' : line[at];
}

bool ends_statement(const std::string &line) {
    size_t first = line.find_first_not_of(" \t");
    char last = last_of(line);
    return last == ';' || last == '{' || last == '}' || last == ':' ||
        (first != std::string::npos && line[first] == '#');
}

bool is_letter(char c) { return isalnum(static_cast<unsigned char>(c)) || c == '_'; }

// Names, numbers, and signs of one or two letters. Texts in quotes are left out.
Words words_of(const std::string &text) {
    Words words;
    for (size_t at = 0; at < text.size();) {
        size_t end = at + 1;
        if (is_letter(text[at])) {
            while (end < text.size() && is_letter(text[end])) end++;
            words.push_back(text.substr(at, end - at));
        } else if (text[at] == '"' || text[at] == '\'') {
            while (end < text.size() && text[end] != text[at]) end += text[end] == '\\' ? 2 : 1;
            end++;
        } else if (text[at] != ' ' && text[at] != '\t' && text[at] != '\r') {
            static const char *const pairs[] = {"->", "::", "==", "!=", "<=", ">=", "+=", "-=", "|=", "&="};
            std::string two = text.substr(at, 2);
            if (std::find(std::begin(pairs), std::end(pairs), two) != std::end(pairs)) end++;
            words.push_back(text.substr(at, end - at));
        }
        at = end;
    }
    return words;
}

bool is_name(const Words &words, size_t at) {
    return at < words.size() && is_letter(words[at][0]) && !isdigit(static_cast<unsigned char>(words[at][0]));
}

bool is(const Words &words, size_t at, const char *word) { return at < words.size() && words[at] == word; }

bool is_kind(const Words &words, size_t at) {
    return is(words, at, "struct") || is(words, at, "union") || is(words, at, "class") || is(words, at, "const") ||
        is(words, at, "typename");
}

// Goes over a name with scopes, and over what is before it; gives its last part.
std::string type_name(const Words &words, size_t &at) {
    while (is_kind(words, at)) at++;
    std::string name;
    while (is_name(words, at)) {
        name = words[at++];
        if (!is(words, at, "::")) break;
        at++;
    }
    return name;
}

Guess of_new(const Words &words, size_t at) {
    Guess guess;
    if (is(words, at, "(") && !is_kind(words, at + 1)) {
        while (at < words.size() && words[at] != ")") at++;
        at++;
    }
    guess.name = type_name(words, at);
    for (int depth = is(words, at, "<") ? 1 : 0; depth && ++at < words.size();)
        depth += words[at] == "<" ? 1 : words[at] == ">" ? -1 : 0, at += !depth;
    if (is(words, at, "*") || guess.name.empty()) return {};
    guess.from = Guess::NEW;
    guess.is_array = is(words, at, "[");
    return guess;
}

// Whether something is added before a word or after it, within its parentheses.
bool adds(const Words &words, size_t at, bool after) {
    const char *opens = after ? "(" : ")", *closes = after ? ")" : "(";
    for (int depth = 0; at < words.size() && depth >= 0; after ? at++ : at--) {
        if (!depth && (words[at] == "+" || words[at] == ",")) return words[at] == "+";
        depth += words[at] == opens ? 1 : words[at] == closes ? -1 : 0;
    }
    return false;
}

// `sizeof *p`, `sizeof(*a->p)`, `sizeof(struct host)`, `sizeof(host)`.
Guess of_size(const Words &words, size_t at) {
    Guess guess;
    guess.is_sum = adds(words, at, true) || adds(words, at - 1, false);
    while (is(words, at, "(")) at++;
    if (is(words, at, "*")) {
        while (is(words, ++at, "(")) {}
        guess.from = Guess::POINTER;
        guess.name = type_name(words, at);
        while ((is(words, at, "->") || is(words, at, ".")) && is_name(words, at + 1)) {
            guess.name = words[at + 1];
            guess.is_member = true;
            at += 2;
        }
    } else {
        guess.from = Guess::SIZE;
        guess.name = type_name(words, at);
    }
    bool is_other = is(words, at, "*") || is(words, at, "[") || is(words, at, "->") || is(words, at, ".");
    return guess.name.empty() || is_other ? Guess{} : guess;
}

// The pointer on the left of `=`.
Guess of_left(const Words &words) {
    auto equals = std::find(words.begin(), words.end(), "=");
    auto at = static_cast<size_t>(equals - words.begin());
    if (equals == words.end() || !at || !is_name(words, at - 1)) return {};
    Guess guess;
    guess.from = Guess::POINTER;
    guess.name = words[at - 1];
    guess.is_member = at > 1 && (words[at - 2] == "->" || words[at - 2] == ".");
    return guess;
}

}

std::string statement_at(const std::string &path, int line) {
    const std::vector<std::string> &lines = lines_of(path);
    if (line < 1 || static_cast<size_t>(line) > lines.size()) return "";
    auto last = static_cast<size_t>(line) - 1, first = last;
    for (int k = 0; k < MOST_LINES && first && !ends_statement(lines[first - 1]); k++) first--;
    for (int k = 0; k < MOST_LINES && last + 1 < lines.size() && !ends_statement(lines[last]); k++) last++;
    std::string whole;
    for (size_t k = first; k <= last; k++) whole += lines[k] + " ";
    return whole;
}

// A type is surer than the pointer, and of several sizes or several `new` none is sure.
Guess guess_in(const std::string &statement) {
    Words words = words_of(statement);
    Guess found;
    auto sizes = std::count(words.begin(), words.end(), "sizeof");
    if (std::count(words.begin(), words.end(), "new") > 1) return {};
    for (size_t at = 0; at < words.size() && found.from == Guess::NONE; at++) {
        if (words[at] == "new") return of_new(words, at + 1);
        if (words[at] == "sizeof") return sizes == 1 ? of_size(words, at + 1) : Guess{};
        size_t after = at + 1;
        if (words[at] != "(" || (at && is_name(words, at - 1) && words[at - 1] != "return")) continue;
        std::string name = type_name(words, after);
        if (!name.empty() && is(words, after, "*") && is(words, after + 1, ")"))
            found.from = Guess::CAST, found.name = name;
    }
    if (std::find(words.begin(), words.end(), "sizeof") != words.end() && found.from == Guess::CAST) {
        auto size = static_cast<size_t>(std::find(words.begin(), words.end(), "sizeof") - words.begin());
        Guess by_size = sizes == 1 ? of_size(words, size + 1) : Guess{};
        if (by_size.from != Guess::NONE) return by_size;
    }
    if (found.from == Guess::NONE) found = of_left(words);
    found.passes_on = is(words, 0, "return");
    return found;
}

}
