// Compare-and-swaps that fail are reads, with the order that they have when they fail: a relaxed one passes nothing on,
// one that acquires does, and two of them have no order, whatever the size of the variable.
#include <atomic>
#include <chrono>
#include <cstdio>
#include <thread>
struct Wide {
    int a, b, c;
};
static std::atomic<int> weak{0}, strong{0}, narrow{1};
static std::atomic<Wide> wide{Wide{1, 2, 3}};
static int by_weak, by_strong, by_narrow, by_wide;

static void fails() {
    int other = 5;
    if (narrow.compare_exchange_strong(other, 6)) std::puts("swapped");
    Wide none{4, 5, 6};
    if (wide.compare_exchange_strong(none, Wide{7, 8, 9})) std::puts("swapped");
}

static void first() {
    by_narrow = 1; // RACE narrow
    by_wide = 1; // RACE wide
    fails();
    by_strong = 1, strong.store(1, std::memory_order_release);
    by_weak = 1, weak.store(1, std::memory_order_release); // RACE weak
}

static void second() {
    std::this_thread::sleep_for(std::chrono::milliseconds(20));
    fails();
    int sum = by_narrow; // RACE narrow
    sum += by_wide; // RACE wide
    int seen = 0;
    while (strong.compare_exchange_weak(seen, 0, std::memory_order_relaxed, std::memory_order_acquire))
        std::this_thread::yield();
    sum += by_strong;
    seen = 0;
    while (weak.compare_exchange_strong(seen, 0, std::memory_order_acquire, std::memory_order_relaxed))
        std::this_thread::yield();
    sum += by_weak; // RACE weak
    std::printf("%d\n", sum);
}

int main() {
    std::thread a(first), b(second);
    a.join(), b.join();
}
