// A hash map is added to while the other thread counts it; the clean twin has a mutex.
#include "pair.h"
#include <mutex>
#include <thread>
#include <unordered_map>
static std::mutex mutex;
static std::unordered_map<int, int> numbers;

int main() {
    std::thread first([] {
        IF_CLEAN(std::lock_guard<std::mutex> held(mutex));
        numbers[2] = 2; // RACE
    });
    std::thread second([] {
        IF_CLEAN(std::lock_guard<std::mutex> held(mutex));
        need(numbers.count(3) == 0); // RACE
    });
    first.join();
    second.join();
    return 0;
}
