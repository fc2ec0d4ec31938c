// CXX20
// Threads count a latch down. The racy twin sets its data after it counted.
#include "pair.h"
#include <latch>
#include <thread>
static std::latch latch(1);
static int data, seen;

int main() {
    std::thread first([] {
        IF_CLEAN(data = 1;)
        latch.count_down();
        IF_RACY(data = 1;) // RACE
    });
    std::thread second([] {
        latch.wait();
        seen = data; // RACE
    });
    first.join();
    second.join();
    return seen == 9;
}
