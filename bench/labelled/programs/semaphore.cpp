// CXX20
// std::counting_semaphore. The racy twin lets two threads in.
#include "pair.h"
#include <semaphore>
#include <thread>
static std::counting_semaphore<2> room(IF_RACY(2) IF_CLEAN(1));
static int value;

static void change() {
    room.acquire();
    value++; // RACE
    room.release();
}

int main() {
    std::thread first(change), second(change);
    first.join();
    second.join();
    return value == 9;
}
