// A singleton that is made once: with an atomic rightly, with a plain pointer wrongly.
#include <atomic>
#include <cstdio>
#include <mutex>
#include <thread>
struct One {
    int n = 5;
};
static std::mutex m;
static std::atomic<One *> right;
static One *wrong;
static int sums[2];
static One *rightly() {
    One *p = right.load(std::memory_order_acquire);
    if (!p) {
        std::lock_guard<std::mutex> l(m);
        p = right.load(std::memory_order_relaxed);
        if (!p) right.store(p = new One, std::memory_order_release);
    }
    return p;
}
static One *wrongly() {
    if (!wrong) { // RACE a
        std::lock_guard<std::mutex> l(m);
        if (!wrong) wrong = new One; // RACE a
    }
    return wrong; // RACE a
}
static void work(int *sum) {
    *sum += rightly()->n;
    *sum += wrongly()->n;
}
int main() {
    std::thread a(work, &sums[0]), b(work, &sums[1]);
    a.join(), b.join();
    std::printf("%d\n", sums[0] + sums[1]);
}
