// Two threads append to a vector; the clean twin has a mutex.
#include "pair.h"
#include <mutex>
#include <thread>
#include <vector>
static std::mutex mutex;
static std::vector<int> numbers;

static void add(int number) {
    IF_CLEAN(std::lock_guard<std::mutex> held(mutex));
    numbers.push_back(number); // RACE
}

int main() {
    std::thread first(add, 1), second(add, 2);
    first.join();
    second.join();
    return numbers.size() == 9;
}
