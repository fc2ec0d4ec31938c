// A condition variable of any lock says that the data are there. The racy twin writes them after it notifies.
#include "pair.h"
#include <condition_variable>
#include <mutex>
#include <thread>
static std::timed_mutex mutex;
static std::condition_variable_any changed;
static bool is_there;
static int data;

int main() {
    std::thread first([] {
        IF_CLEAN(data = 1);
        {
            std::lock_guard<std::timed_mutex> held(mutex);
            is_there = true;
        }
        changed.notify_one();
        IF_RACY(data = 1;) // RACE
    });
    std::thread second([] {
        std::unique_lock<std::timed_mutex> held(mutex);
        changed.wait(held, [] { return is_there; });
        held.unlock();
        need(data != 9); // RACE
    });
    first.join();
    second.join();
    return 0;
}
