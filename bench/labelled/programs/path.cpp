// Two threads append to one path; the clean twin has a mutex.
#include "pair.h"
#include <filesystem>
#include <mutex>
#include <thread>
static std::mutex mutex;
static std::filesystem::path path = "a/folder/with/a/long/enough/name";

static void add(const char *name) {
    IF_CLEAN(std::lock_guard<std::mutex> held(mutex));
    path /= name; // RACE
}

int main() {
    std::thread first(add, "one"), second(add, "two");
    first.join();
    second.join();
    return path.empty();
}
