// Channels through which each byte comes once, in the order of the sends: pipes, and sockets of streams. Who received a
// byte comes after who sent it, and not after later sends.
#pragma once
#include <cstddef>
#include <vector>
#include "../runtime/format.h"

namespace streams {

// Where a walk over the records is in a stream: how many sends and how many received bytes have gone by.
struct Place {
    size_t sends = 0;
    u64 taken = 0;
};

class Stream {
public:
    // Each record of the channel, in their order.
    void see(const record &one);
    // Whether each byte that was received had been sent: else a message came from elsewhere.
    bool is_whole() const { return any && !mixed; }
    // The number of the next send, from 1 on; 0 if nobody needs it.
    u64 next_send(Place &place) const;
    // The last send that a record comes after, which received some bytes or the end, or found that a byte is there; or
    // 0.
    u64 next_receive(const record &one, Place &place) const;

private:
    u64 send_before(const record &one, u64 received, size_t known) const;
    bool any = false, mixed = false;
    // How many bytes were sent up to each send, and which of the sends a receive comes after.
    std::vector<u64> ends;
    std::vector<bool> needed;
    u64 received = 0;
};

}
