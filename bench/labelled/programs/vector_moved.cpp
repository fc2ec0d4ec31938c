// A thread keeps a reference into a vector that the other lets grow; the clean twin reserved the room.
#include "pair.h"
#include <thread>
#include <vector>
static std::vector<int> numbers(1);

int main() {
    IF_CLEAN(numbers.reserve(8));
    int &one = numbers[0];
    std::thread first([&one] {
        need(one != 9); // RACE
    });
    std::thread second([] {
        numbers.push_back(1); // RACE
    });
    first.join();
    second.join();
    return 0;
}
