// CXX20
// Two threads meet at a std::barrier. In the racy twin one of them drops out and does not wait.
#include "pair.h"
#include <barrier>
#include <thread>
static std::barrier<> barrier(2);
static int half[2], sum[2];

static void work(int mine) {
    half[mine] = 1; // RACE
#ifdef RACY
    if (mine) barrier.arrive_and_drop();
    else barrier.arrive_and_wait();
#else
    barrier.arrive_and_wait();
#endif
    sum[mine] = half[!mine]; // RACE
}

int main() {
    std::thread first(work, 0), second(work, 1);
    first.join();
    second.join();
    return sum[0] == 9;
}
