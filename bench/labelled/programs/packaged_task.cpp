// A packaged task runs in another thread. The racy twin reads what it captured before the result is there.
#include "pair.h"
#include <future>
#include <thread>

int main() {
    int captured = 0, seen;
    std::packaged_task<int()> task([&captured] {
        captured = 1; // RACE
        return 2;
    });
    std::future<int> result = task.get_future();
    std::thread runner(std::move(task));
    IF_CLEAN(result.get();)
    seen = captured; // RACE
    runner.join();
    return seen == 9;
}
