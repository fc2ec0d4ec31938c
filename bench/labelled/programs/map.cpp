// A map is added to while the other thread looks a key up; the clean twin has a mutex.
#include "pair.h"
#include <map>
#include <mutex>
#include <thread>
static std::mutex mutex;
static std::map<int, int> numbers = {{1, 1}};

int main() {
    std::thread first([] {
        IF_CLEAN(std::lock_guard<std::mutex> held(mutex));
        numbers[2] = 2; // RACE
    });
    std::thread second([] {
        IF_CLEAN(std::lock_guard<std::mutex> held(mutex));
        need(numbers.find(3) == numbers.end()); // RACE
    });
    first.join();
    second.join();
    return 0;
}
