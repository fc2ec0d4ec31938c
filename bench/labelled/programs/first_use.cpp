// A value is made at its first use. The racy twin checks a plain pointer before it takes the mutex.
#include "pair.h"
#include <mutex>
#include <thread>
struct table {
    int size = 4;
};
static std::mutex mutex;
static table *made;

static int size() {
#ifdef RACY
    if (!made) { // RACE
        std::lock_guard<std::mutex> held(mutex);
        if (!made) made = new table; // RACE
    }
    return made->size; // RACE
#else
    static table own;
    return own.size;
#endif
}

int main() {
    int sizes[2];
    std::thread first([&] { sizes[0] = size(); }), second([&] { sizes[1] = size(); });
    first.join();
    second.join();
    return sizes[0] == 9;
}
