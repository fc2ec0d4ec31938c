#include "streams.hpp"
#include <algorithm>

namespace streams {

// A poll that finds something looks at the next byte. At the end of the stream nothing more was sent.
u64 Stream::send_before(const record &one, u64 before, size_t known) const {
    bool looks = one.kind == TRIED;
    auto end = ends.begin() + static_cast<ptrdiff_t>(known);
    if (!looks && !one.answer) return known;
    u64 last = before + (looks ? 1 : one.answer);
    auto send = std::lower_bound(ends.begin(), end, last);
    return send == end ? known : static_cast<u64>(send - ends.begin()) + 1;
}

void Stream::see(const record &one) {
    any = true;
    if (one.kind == PASS && one.order == POSTED) {
        ends.push_back((ends.empty() ? 0 : ends.back()) + one.answer);
        needed.push_back(false);
    } else if (one.kind == TRIED || (one.kind == PASS && one.order == WAITED)) {
        u64 send = send_before(one, received, ends.size());
        if (send) needed[send - 1] = true;
        if (one.kind == PASS) received += one.answer;
        mixed |= received > (ends.empty() ? 0 : ends.back());
    } else {
        mixed = true;
    }
}

u64 Stream::next_send(Place &place) const { return needed[place.sends++] ? place.sends : 0; }

u64 Stream::next_receive(const record &one, Place &place) const {
    u64 send = send_before(one, place.taken, place.sends);
    if (one.kind == PASS) place.taken += one.answer;
    return send;
}

}
