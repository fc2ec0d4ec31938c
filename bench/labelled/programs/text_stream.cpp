// Two threads write to one stream of text; the clean twin has a mutex.
#include "pair.h"
#include <mutex>
#include <sstream>
#include <thread>
static std::mutex mutex;
static std::ostringstream stream;

static void put(int number) {
    IF_CLEAN(std::lock_guard<std::mutex> held(mutex));
    stream << number; // RACE
}

int main() {
    std::thread first(put, 1), second(put, 2);
    first.join();
    second.join();
    return stream.str().size() == 9;
}
