// Relaxed atomics whose order a lock gives: what was written before the lock was released is there after it is taken.
#include <atomic>
#include <cstdio>
#include <mutex>
#include <shared_mutex>
#include <thread>
static std::mutex m;
static std::shared_mutex rw;
static std::atomic<bool> ready, seen;
static std::atomic<int> place, counted;
static int data, item, plain;
static volatile int racy;
static void gives() {
    data = 5;
    {
        std::lock_guard<std::mutex> l(m);
        ready.store(true, std::memory_order_relaxed);
    }
    item = 6;
    {
        std::unique_lock<std::shared_mutex> l(rw);
        place.store(1, std::memory_order_relaxed);
    }
    counted.fetch_add(1, std::memory_order_relaxed);
    bool first;
    {
        std::lock_guard<std::mutex> l(m);
        first = !seen.load(std::memory_order_relaxed);
    }
    if (first) plain++;
    {
        std::lock_guard<std::mutex> l(m);
        seen.store(true, std::memory_order_relaxed);
    }
    racy = 1; // RACE
}
static void takes() {
    for (bool there = false; !there; std::this_thread::yield()) {
        std::lock_guard<std::mutex> l(m);
        there = ready.load(std::memory_order_relaxed);
    }
    int sum = data;
    for (int there = 0; !there; std::this_thread::yield()) {
        std::shared_lock<std::shared_mutex> l(rw);
        there = place.load(std::memory_order_relaxed);
    }
    sum += item;
    counted.fetch_add(1, std::memory_order_relaxed);
    for (bool there = false; !there; std::this_thread::yield()) {
        std::lock_guard<std::mutex> l(m);
        there = seen.load(std::memory_order_relaxed);
    }
    plain += sum;
    racy = 2; // RACE
}
int main() {
    std::thread a(gives), b(takes);
    a.join(), b.join();
    std::printf("%d\n", plain);
}
