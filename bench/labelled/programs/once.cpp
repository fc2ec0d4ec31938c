// std::call_once. The racy twin reads what it makes without the call.
#include "pair.h"
#include <mutex>
#include <thread>
static std::once_flag once;
static int value, seen[2];

int main() {
    std::thread first([] {
        std::call_once(once, [] { value = 4; }); // RACE
        seen[0] = value;
    });
    std::thread second([] {
        IF_CLEAN(std::call_once(once, [] { value = 4; }));
        seen[1] = value; // RACE
    });
    first.join();
    second.join();
    return seen[0] == 9;
}
