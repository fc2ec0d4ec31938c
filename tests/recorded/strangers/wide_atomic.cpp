// Atomics of 16 and of 24 bytes hand plain data on.
#include <atomic>
#include <cstdio>
#include <thread>
struct Two {
    long a, b;
};
struct Three {
    long a, b, c;
};
static std::atomic<Two> two;
static std::atomic<Three> three;
static int data2, data3;
static volatile int racy;
int main() {
    std::thread w([] {
        data2 = 2, two.store({1, 2});
        data3 = 3, three.store({1, 2, 3});
        racy = 1; // RACE
    });
    std::thread r([] {
        while (two.load().a != 1) std::this_thread::yield();
        int sum = data2;
        while (three.load().c != 3) std::this_thread::yield();
        sum += data3;
        racy = sum; // RACE
    });
    w.join(), r.join();
    Three was = three.load();
    std::printf("%d %d\n", three.compare_exchange_strong(was, {4, 5, 6}), (int)three.exchange({7, 8, 9}).b);
}
