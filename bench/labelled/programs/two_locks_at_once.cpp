// std::scoped_lock takes two mutexes. The racy twin takes one of them and changes what the other guards.
#include "pair.h"
#include <mutex>
#include <thread>
static std::mutex left, right;
static int sums[2];

int main() {
    std::thread first([] {
        std::scoped_lock held(left IF_CLEAN(, right));
        sums[0]++;
        sums[1]--; // RACE
    });
    std::thread second([] {
        std::scoped_lock held(right, left);
        sums[0]++;
    });
    std::thread third([] {
        std::lock_guard<std::mutex> held(right);
        sums[1]++; // RACE
    });
    first.join();
    second.join();
    third.join();
    return sums[0] == 9;
}
