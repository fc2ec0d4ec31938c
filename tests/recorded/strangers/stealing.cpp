// A deque from which thieves steal (Chase and Lev, with sequentially consistent fences); each job is done once. The
// count of steals races.
#include <atomic>
#include <cstdio>
#include <thread>
#include <vector>
enum { SIZE = 64, JOBS = 24 };
static std::atomic<long> top, bottom;
static std::atomic<int> jobs[SIZE];
static std::atomic<int> left{JOBS};
static int done[JOBS], steals;
static void push(int job) {
    long b = bottom.load(std::memory_order_relaxed);
    jobs[b % SIZE].store(job, std::memory_order_relaxed);
    std::atomic_thread_fence(std::memory_order_release);
    bottom.store(b + 1, std::memory_order_relaxed);
}
static int take() {
    long b = bottom.load(std::memory_order_relaxed) - 1;
    bottom.store(b, std::memory_order_relaxed);
    std::atomic_thread_fence(std::memory_order_seq_cst);
    long t = top.load(std::memory_order_relaxed);
    int job = -1;
    if (t <= b) {
        job = jobs[b % SIZE].load(std::memory_order_relaxed);
        if (t == b) {
            if (!top.compare_exchange_strong(t, t + 1)) job = -1;
            bottom.store(b + 1, std::memory_order_relaxed);
        }
    } else {
        bottom.store(b + 1, std::memory_order_relaxed);
    }
    return job;
}
static int steal() {
    long t = top.load(std::memory_order_acquire);
    std::atomic_thread_fence(std::memory_order_seq_cst);
    long b = bottom.load(std::memory_order_acquire);
    if (t >= b) return -1;
    int job = jobs[t % SIZE].load(std::memory_order_relaxed);
    return top.compare_exchange_strong(t, t + 1) ? job : -1;
}
static void thief() {
    while (left > 0) {
        int job = steal();
        if (job < 0) {
            std::this_thread::yield();
            continue;
        }
        done[job]++, left--;
        steals++; // RACE
    }
}
int main() {
    std::vector<std::thread> t;
    for (int k = 0; k < 2; k++) t.emplace_back(thief);
    for (int k = 0; k < JOBS; k++) push(k), std::this_thread::yield();
    while (left > 0) {
        int job = take();
        if (job < 0) std::this_thread::yield();
        else done[job]++, left--;
    }
    for (auto &one : t) one.join();
    int once = 0;
    for (int n : done) once += n == 1;
    std::printf("%d\n", once);
}
