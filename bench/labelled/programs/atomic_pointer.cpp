// CXX20
// An atomic shared pointer publishes an object. The racy twin changes the object after that.
#include "pair.h"
#include <atomic>
#include <memory>
#include <thread>
static std::atomic<std::shared_ptr<int>> pointer;

int main() {
    std::thread first([] {
        std::shared_ptr<int> made = std::make_shared<int>(1);
        pointer.store(made);
        IF_RACY(*made = 2;) // RACE
    });
    std::thread second([] {
        std::shared_ptr<int> found = pointer.load();
        if (found && *found == 9) abort(); // RACE
    });
    first.join();
    second.join();
    return 0;
}
