// A list is added to while the other thread walks it; the clean twin has a mutex.
#include "pair.h"
#include <list>
#include <mutex>
#include <thread>
static std::mutex mutex;
static std::list<int> numbers = {1};

int main() {
    std::thread first([] {
        IF_CLEAN(std::lock_guard<std::mutex> held(mutex));
        numbers.push_back(2); // RACE
    });
    std::thread second([] {
        IF_CLEAN(std::lock_guard<std::mutex> held(mutex));
        int sum = 0;
        for (int number : numbers) sum += number; // RACE
        need(sum != 9);
    });
    first.join();
    second.join();
    return 0;
}
