// Two threads own one object by shared pointers, and the last one destroys it. The racy twin uses a plain pointer.
#include "pair.h"
#include <memory>
#include <thread>

int main() {
    std::shared_ptr<int> pointer = std::make_shared<int>(1);
    IF_RACY(int *plain = pointer.get();)
    std::thread first([mine = std::move(pointer)]() mutable {
        mine.reset(); // RACE
    });
    IF_RACY(int seen = *plain;) // RACE
    first.join();
    return IF_RACY(seen) IF_CLEAN(0) == 9;
}
