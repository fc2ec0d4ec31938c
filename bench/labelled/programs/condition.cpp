// std::condition_variable. The racy twin sets the data after the condition.
#include "pair.h"
#include <condition_variable>
#include <mutex>
#include <thread>
static std::mutex mutex;
static std::condition_variable changed;
static bool ready;
static int data, seen;

int main() {
    std::thread first([] {
        IF_CLEAN(data = 1;)
        {
            std::lock_guard<std::mutex> held(mutex);
            ready = true;
        }
        changed.notify_one();
        IF_RACY(data = 1;) // RACE
    });
    std::thread second([] {
        std::unique_lock<std::mutex> held(mutex);
        changed.wait(held, [] { return ready; });
        seen = data; // RACE
    });
    first.join();
    second.join();
    return seen == 9;
}
