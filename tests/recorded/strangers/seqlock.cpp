// A sequence lock: whose data are atomic has no race; whose data are plain has one.
#include <atomic>
#include <cstdio>
#include <thread>
static std::atomic<unsigned> right, wrong;
static std::atomic<int> a, b;
static int c, d;
static void writes() {
    for (int k = 1; k <= 5; k++) {
        right.fetch_add(1, std::memory_order_acq_rel);
        a.store(k, std::memory_order_relaxed), b.store(-k, std::memory_order_relaxed);
        right.fetch_add(1, std::memory_order_release);
        wrong.fetch_add(1);
        c = k; // RACE plain
        wrong.fetch_add(1);
    }
}
static int reads() {
    unsigned before, after;
    int sum;
    do {
        before = right.load(std::memory_order_acquire);
        sum = a.load(std::memory_order_relaxed) + b.load(std::memory_order_relaxed);
        std::atomic_thread_fence(std::memory_order_acquire);
        after = right.load(std::memory_order_relaxed);
    } while (before % 2 || before != after);
    do {
        before = wrong.load();
        d = c; // RACE plain
        after = wrong.load();
    } while (before % 2 || before != after);
    return sum;
}
int main() {
    int sum = 0;
    std::thread writer(writes), reader([&sum] {
        for (int k = 0; k < 5; k++) sum += reads();
    });
    writer.join(), reader.join();
    std::printf("%d %d\n", sum, d >= 0);
}
