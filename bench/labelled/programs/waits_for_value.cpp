// CXX20
// A thread waits at an atomic variable. The racy twin sets its data after it notifies.
#include "pair.h"
#include <atomic>
#include <thread>
static std::atomic<int> flag;
static int data, seen;

int main() {
    std::thread first([] {
        IF_CLEAN(data = 1;)
        flag.store(1);
        flag.notify_all();
        IF_RACY(data = 1;) // RACE
    });
    std::thread second([] {
        flag.wait(0);
        seen = data; // RACE
    });
    first.join();
    second.join();
    return seen == 9;
}
