// std::async. The racy twin reads the data before it has the result.
#include "pair.h"
#include <future>
static int data;

int main() {
    std::future<int> result = std::async(std::launch::async, [] {
        data = 1; // RACE
        return 2;
    });
    IF_CLEAN(result.wait());
    int seen = data; // RACE
    return seen + result.get() == 9;
}
