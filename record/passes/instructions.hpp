/* What the instructions of a line of assembly do: those of x86-64. Of another processor nothing is known. */
#pragma once
#include <cstring>
#include <initializer_list>
#include <string>

/* Moves are loads and stores; others, as prefetches, access nothing. */
struct Instructions {
    bool is_atomic = false, are_moves = true, access_nothing = true;

    explicit Instructions(const std::string &text) {
#if defined __x86_64__
        for (size_t at = 0; at < text.size();) {
            size_t end = text.find_first_of(";\n", at);
            add(text.substr(at, end == std::string::npos ? end : end - at));
            at = end == std::string::npos ? text.size() : end + 1;
        }
#endif
    }

private:
    static bool begins(const std::string &text, std::initializer_list<const char *> words) {
        for (const char *word : words)
            if (!text.compare(0, strlen(word), word)) return true;
        return false;
    }

    static std::string without_blanks(const std::string &text) {
        size_t first = text.find_first_not_of(" \t");
        return first == std::string::npos ? "" : text.substr(first);
    }

    void add(const std::string &line) {
        std::string text = without_blanks(line);
        size_t label = text.find(':');
        if (label != std::string::npos && text.find_first_of(" \t") > label)
            text = without_blanks(text.substr(label + 1));
        if (text.empty() || begins(text, {"#", "."})) return;
        is_atomic |= begins(text, {"lock", "xchg"});
        are_moves &= begins(text, {"mov"});
        access_nothing &= begins(text, {"prefetch", "clflush", "clwb", "lea", "nop", "pause", "invlpg"});
    }
};
