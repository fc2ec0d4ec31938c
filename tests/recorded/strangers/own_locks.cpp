// Locks that a program makes itself: of a flag, of tickets, and a queue of waiters; and one whose unlock is relaxed.
#include <atomic>
#include <cstdio>
#include <thread>
#include <vector>
static std::atomic_flag flag;
static std::atomic<unsigned> next, serving;
static int by_flag, by_ticket, by_queue;
struct Waiter {
    std::atomic<Waiter *> next{nullptr};
    std::atomic<bool> waits{false};
};
static std::atomic<Waiter *> tail;
static void lock_queue(Waiter *w) {
    Waiter *before = tail.exchange(w, std::memory_order_acq_rel);
    if (!before) return;
    w->waits.store(true, std::memory_order_relaxed);
    before->next.store(w, std::memory_order_release);
    while (w->waits.load(std::memory_order_acquire)) std::this_thread::yield();
}
static void unlock_queue(Waiter *w) {
    Waiter *mine = w;
    if (!w->next.load(std::memory_order_acquire)) {
        if (tail.compare_exchange_strong(mine, nullptr, std::memory_order_acq_rel)) return;
        while (!w->next.load(std::memory_order_acquire)) std::this_thread::yield();
    }
    w->next.load(std::memory_order_acquire)->waits.store(false, std::memory_order_release);
}
static void work() {
    for (int k = 0; k < 6; k++) {
        while (flag.test_and_set(std::memory_order_acquire)) std::this_thread::yield();
        by_flag++;
        flag.clear(std::memory_order_release);
        unsigned mine = next.fetch_add(1, std::memory_order_relaxed);
        while (serving.load(std::memory_order_acquire) != mine) std::this_thread::yield();
        by_ticket++;
        serving.store(mine + 1, std::memory_order_release);
        Waiter w;
        lock_queue(&w);
        by_queue++;
        unlock_queue(&w);
    }
}
int main() {
    std::vector<std::thread> t;
    for (int k = 0; k < 3; k++) t.emplace_back(work);
    for (auto &one : t) one.join();
    std::printf("%d %d %d\n", by_flag, by_ticket, by_queue);
}
