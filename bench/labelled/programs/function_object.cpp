// A function object is replaced while the other thread calls it; the clean twin has a mutex.
#include "pair.h"
#include <functional>
#include <mutex>
#include <thread>
static std::mutex mutex;
static std::function<int()> function = [] { return 1; };

int main() {
    std::thread first([] {
        IF_CLEAN(std::lock_guard<std::mutex> held(mutex));
        function = [] { return 2; }; // RACE
    });
    std::thread second([] {
        IF_CLEAN(std::lock_guard<std::mutex> held(mutex));
        need(function() != 9); // RACE
    });
    first.join();
    second.join();
    return 0;
}
