// A pointer that is checked twice. The clean twin has an atomic pointer; the racy one reads it relaxed.
#include "pair.h"
#include <atomic>
#include <mutex>
#include <thread>
struct table {
    int size;
};
static std::mutex mutex;
static std::atomic<table *> made;

static int size() {
    table *now = made.load(IF_RACY(std::memory_order_relaxed) IF_CLEAN(std::memory_order_acquire));
    if (!now) {
        std::lock_guard<std::mutex> held(mutex);
        now = made.load(std::memory_order_relaxed);
        if (!now) {
            now = new table;
            now->size = 4; // RACE
            made.store(now, IF_RACY(std::memory_order_relaxed) IF_CLEAN(std::memory_order_release));
        }
    }
    return now->size; // RACE
}

int main() {
    std::thread first([] { need(size() == 4); }), second([] { need(size() == 4); });
    first.join();
    second.join();
    return 0;
}
