// A shared pointer is copied while the other thread assigns it; the clean twin has a mutex.
#include "pair.h"
#include <memory>
#include <mutex>
#include <thread>
static std::mutex mutex;
static std::shared_ptr<int> pointer = std::make_shared<int>(1);

int main() {
    std::thread first([] {
        std::shared_ptr<int> next = std::make_shared<int>(2);
        IF_CLEAN(std::lock_guard<std::mutex> held(mutex));
        pointer = next; // RACE
    });
    std::thread second([] {
        IF_CLEAN(std::lock_guard<std::mutex> held(mutex));
        std::shared_ptr<int> copy = pointer; // RACE
        need(copy != nullptr);
    });
    first.join();
    second.join();
    return 0;
}
