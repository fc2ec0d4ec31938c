// A promise and its future. The racy twin sets its data after the promise.
#include "pair.h"
#include <future>
#include <thread>
static int data, seen;

int main() {
    std::promise<int> promise;
    std::future<int> future = promise.get_future();
    std::thread first([&] {
        IF_CLEAN(data = 1;)
        promise.set_value(3);
        IF_RACY(data = 1;) // RACE
    });
    std::thread second([&] {
        future.get();
        seen = data; // RACE
    });
    first.join();
    second.join();
    return seen == 9;
}
