// Data that atomics alone guard, each rightly; and one flag that is relaxed.
#include <atomic>
#include <cstdio>
#include <thread>
struct Node {
    int value;
    Node *next;
};
static std::atomic<Node *> top;
static std::atomic<unsigned> seq;
static std::atomic<long> shared_a, shared_b;
static int ring[8];
static std::atomic<unsigned> head, tail;
static std::atomic_flag spin = ATOMIC_FLAG_INIT;
static int by_spin, by_fence, by_peterson;
static volatile int racy;
static std::atomic<bool> fenced, relaxed_flag, want[2];
static std::atomic<int> turn;
static std::atomic<int *> made;
static long sum;
static void enter(int me) {
    want[me] = true, turn = 1 - me;
    while (want[1 - me] && turn == 1 - me) std::this_thread::yield();
}
static void a() {
    for (int k = 0; k < 5; k++) {
        Node *n = new Node{k, top.load(std::memory_order_relaxed)};
        while (!top.compare_exchange_weak(n->next, n, std::memory_order_release, std::memory_order_relaxed)) {}
    }
    seq.store(1, std::memory_order_relaxed), std::atomic_thread_fence(std::memory_order_release);
    shared_a.store(1, std::memory_order_relaxed), shared_b.store(1, std::memory_order_relaxed);
    seq.store(2, std::memory_order_release);
    for (int k = 0; k < 20; k++) {
        unsigned t = tail.load(std::memory_order_relaxed);
        while (t - head.load(std::memory_order_acquire) == 8) std::this_thread::yield();
        ring[t % 8] = k, tail.store(t + 1, std::memory_order_release);
    }
    while (spin.test_and_set(std::memory_order_acquire)) std::this_thread::yield();
    by_spin++, spin.clear(std::memory_order_release);
    by_fence = 4, std::atomic_thread_fence(std::memory_order_release), fenced.store(true, std::memory_order_relaxed);
    enter(0), by_peterson++, want[0] = false;
    made.store(new int(3), std::memory_order_release);
    racy = 1; // RACE
    relaxed_flag.store(true, std::memory_order_relaxed);
}
static void b() {
    int found = 0;
    while (found < 5) {
        Node *n = top.load(std::memory_order_acquire);
        if (!n || !top.compare_exchange_strong(n, n->next, std::memory_order_acquire)) {
            std::this_thread::yield();
            continue;
        }
        sum += n->value, found++;
    }
    while (seq.load(std::memory_order_acquire) != 2) std::this_thread::yield();
    sum += shared_a.load(std::memory_order_relaxed);
    for (int k = 0; k < 20; k++) {
        unsigned h = head.load(std::memory_order_relaxed);
        while (tail.load(std::memory_order_acquire) == h) std::this_thread::yield();
        sum += ring[h % 8], head.store(h + 1, std::memory_order_release);
    }
    while (spin.test_and_set(std::memory_order_acquire)) std::this_thread::yield();
    by_spin++, spin.clear(std::memory_order_release);
    while (!fenced.load(std::memory_order_relaxed)) std::this_thread::yield();
    std::atomic_thread_fence(std::memory_order_acquire), sum += by_fence;
    enter(1), by_peterson++, want[1] = false;
    int *p;
    while (!(p = made.load(std::memory_order_acquire))) std::this_thread::yield();
    sum += *p;
    while (!relaxed_flag.load(std::memory_order_relaxed)) std::this_thread::yield();
    sum += racy; // RACE
}
int main() {
    std::thread x(a), y(b);
    x.join(), y.join();
    std::printf("%ld %d %d\n", sum, by_spin, by_peterson);
}
