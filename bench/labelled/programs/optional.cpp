// An optional is set while the other thread looks whether it is; the clean twin has a mutex.
#include "pair.h"
#include <mutex>
#include <optional>
#include <thread>
static std::mutex mutex;
static std::optional<int> value;

int main() {
    std::thread first([] {
        IF_CLEAN(std::lock_guard<std::mutex> held(mutex));
        value = 4; // RACE
    });
    std::thread second([] {
        IF_CLEAN(std::lock_guard<std::mutex> held(mutex));
        need(!value || *value == 4); // RACE
    });
    first.join();
    second.join();
    return 0;
}
