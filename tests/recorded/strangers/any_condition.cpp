// std::condition_variable_any over a shared lock and over a lock of the program's own; notify at thread exit.
#include <condition_variable>
#include <cstdio>
#include <future>
#include <mutex>
#include <shared_mutex>
#include <thread>
static std::shared_mutex shared;
static std::condition_variable_any news;
static std::mutex m;
static std::condition_variable at_end;
static int value, seen[2], ended;
static volatile int plain;
struct Counted {
    std::mutex inner;
    int locks = 0;
    void lock() { inner.lock(), locks++; }
    void unlock() { inner.unlock(); }
};
static Counted own;
static int by_own;
static void reads(int self) {
    {
        std::shared_lock<std::shared_mutex> l(shared);
        news.wait(l, [] { return value > 0; });
        seen[self] = value;
    }
    {
        std::unique_lock<Counted> l(own);
        by_own++;
        news.wait(l, [] { return by_own >= 2; });
        news.notify_all();
    }
    plain = self; // RACE
    std::unique_lock<std::mutex> l(m);
    ended++;
    std::notify_all_at_thread_exit(at_end, std::move(l));
}
int main() {
    std::thread one(reads, 0), other(reads, 1);
    {
        std::unique_lock<std::shared_mutex> l(shared);
        value = 7;
    }
    news.notify_all();
    {
        std::unique_lock<std::mutex> l(m);
        at_end.wait(l, [] { return ended == 2; });
    }
    int sum = seen[0] + seen[1];
    one.join(), other.join();
    std::printf("%d %d %d\n", sum, by_own, own.locks >= 2);
}
