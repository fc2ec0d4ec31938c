// The values that accesses read and wrote, as record/run --values has them recorded.
#pragma once
#include <optional>
#include <utility>
#include <vector>
#include "raw.hpp"

namespace values {

class Values {
public:
    explicit Values(const raw::File &file);
    // What the access of a record read or wrote, if that is known.
    std::optional<u64> of(u64 record, bool is_write) const;

private:
    // By the number of the record, twice, and one more for a write.
    std::vector<std::pair<u64, u64>> all;
};

}
