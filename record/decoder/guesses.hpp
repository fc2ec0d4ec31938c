// What a line of a source says of the block that it allocates. Nothing of it is certain.
#pragma once
#include <string>

namespace guesses {

// The type that follows `new`, or that is in a `sizeof` or a cast; or the pointer that gets the block.
struct Guess {
    enum { NONE, NEW, SIZE, CAST, POINTER } from = NONE;
    std::string name;
    // The pointer is a member of something; `new` makes an array; the line returns the block; the size is a sum.
    bool is_member = false, is_array = false, passes_on = false, is_sum = false;
};

// The statement of a line, which may begin and end in the lines around it.
std::string statement_at(const std::string &path, int line);
Guess guess_in(const std::string &statement);

}
