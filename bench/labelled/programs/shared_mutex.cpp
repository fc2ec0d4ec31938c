// std::shared_mutex. The racy twin writes under a shared lock.
#include "pair.h"
#include <mutex>
#include <shared_mutex>
#include <thread>
static std::shared_mutex mutex;
static int value, seen;

int main() {
    std::thread first([] {
        IF_RACY(std::shared_lock) IF_CLEAN(std::unique_lock) held(mutex);
        value = 1; // RACE
    });
    std::thread second([] {
        std::shared_lock held(mutex);
        seen = value; // RACE
    });
    first.join();
    second.join();
    return seen == 9;
}
