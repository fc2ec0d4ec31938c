// A ring whose tail is relaxed, so that its slots race: no run of whole instructions shows that. The race on `done` is met
// in the order of the recording alone: in the printed schedule the consumer is first, and finds nothing.
#include <atomic>
#include <cstdio>
#include <thread>
#include <vector>
#include <string>

template <class T> class Ring {
    std::vector<T> slots;
    std::atomic<unsigned> tail{0}, head{0};
public:
    explicit Ring(unsigned n) : slots(n) {}
    bool push(T v) {
        unsigned t = tail.load(std::memory_order_relaxed);
        if (t - head.load(std::memory_order_acquire) == slots.size()) return false;
        slots[t % slots.size()] = v;
        tail.store(t + 1, std::memory_order_relaxed);   // should be release
        return true;
    }
    bool pop(T &v) {
        unsigned h = head.load(std::memory_order_relaxed);
        if (h == tail.load(std::memory_order_acquire)) return false;
        v = slots[h % slots.size()];
        head.store(h + 1, std::memory_order_release);
        return true;
    }
};

int main() {
    Ring<int> ring(4);
    bool done = false;          // race: plain flag
    long sum = 0;
    std::thread consumer([&] {
        int v;
        while (!done || ring.pop(v)) { if (ring.pop(v)) sum += v; else std::this_thread::yield(); }
    });
    for (int i = 1; i <= 20; i++) while (!ring.push(i)) std::this_thread::yield();
    done = true;
    consumer.join();
    std::printf("sum %ld\n", sum);
}
