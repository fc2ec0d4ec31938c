// std::mutex guards a value. The racy twin has a mutex for each thread.
#include "pair.h"
#include <mutex>
#include <thread>
static std::mutex mutexes[2];
static int value;

static void change(int mine) {
    std::lock_guard<std::mutex> held(mutexes[IF_RACY(mine) IF_CLEAN(0 * mine)]);
    value++; // RACE
}

int main() {
    std::thread first(change, 0), second(change, 1);
    first.join();
    second.join();
    return value == 9;
}
