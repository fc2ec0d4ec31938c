// Bytes of a file that are read one after another. Nothing is read beyond their end.
#pragma once
#include <cstdint>
#include <cstring>

namespace bytes {

class Reader {
public:
    Reader(const void *start, const void *end)
        : at(static_cast<const uint8_t *>(start)), end(static_cast<const uint8_t *>(end)) {}
    const uint8_t *place() const { return at; }
    bool has_more() const { return at < end; }
    // Whether there were fewer bytes than were to be read.
    bool is_short() const { return was_short; }
    uint64_t left() const { return static_cast<uint64_t>(end - at); }
    void skip(uint64_t count) { left() < count ? stop() : void(at += count); }
    // A number of up to 8 bytes, the lowest first.
    uint64_t number(size_t count) {
        uint64_t found = 0;
        if (left() < count) return stop(), 0;
        memcpy(&found, at, count);
        at += count;
        return found;
    }
    // A number in groups of 7 bits, the lowest first.
    uint64_t leb() {
        uint64_t found = 0;
        for (int shift = 0; at < end; shift += 7) {
            uint8_t byte = *at++;
            if (shift < 64) found |= static_cast<uint64_t>(byte & 127) << shift;
            if (byte < 128) return found;
        }
        return stop(), 0;
    }
    // A text that ends with a zero byte.
    const char *text() {
        auto zero = static_cast<const uint8_t *>(memchr(at, 0, left()));
        if (!zero) return stop(), "";
        auto found = reinterpret_cast<const char *>(at);
        at = zero + 1;
        return found;
    }

private:
    void stop() { at = end, was_short = true; }
    const uint8_t *at, *end;
    bool was_short = false;
};

}
