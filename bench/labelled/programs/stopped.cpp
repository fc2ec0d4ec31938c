// CXX20
// A thread is asked to stop. The racy maker reads its count before the join.
#include "pair.h"
#include <thread>
static int count;

int main() {
    std::jthread thread([](std::stop_token token) {
        while (!token.stop_requested()) usleep(200);
        count++; // RACE
    });
    thread.request_stop();
    IF_CLEAN(thread.join());
    int seen = count; // RACE
    IF_RACY(thread.join());
    return seen == 9;
}
