// An object that is destroyed while another thread calls it: after that, by a flag that orders nothing.
#include <atomic>
#include <cstdio>
#include <thread>
#include <unistd.h>
struct Base {
    virtual ~Base() { done = true; } // RACE
    virtual int value() const { return 1; }
    bool done = false;
};
struct Derived : Base { // RACE
    int value() const override { return 2; }
};
static std::atomic<bool> called;
int main() {
    Base *p = new Derived;
    long sum = 0;
    std::thread t([p, &sum] {
        sum += p->value(); // RACE
        called.store(true, std::memory_order_relaxed);
    });
    while (!called.load(std::memory_order_relaxed)) usleep(1000);
    delete p; // RACE
    t.join();
    std::printf("%ld\n", sum);
}
