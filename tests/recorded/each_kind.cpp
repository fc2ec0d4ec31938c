// The same with what C++ itself has. One race is in it: the two lines at RACE.
#include <atomic>
#include <condition_variable>
#include <cstdio>
#include <future>
#include <memory>
#include <mutex>
#include <shared_mutex>
#include <string>
#include <thread>
#include <vector>

static std::mutex mutex, other;
static std::condition_variable news;
static std::shared_mutex shared;
static std::once_flag once;
static std::atomic<int> ready{0};
static int by_mutex, by_both, by_readers, by_once, by_ready, racy;
static bool is_news;
static std::string told;

struct Made {
    std::vector<int> parts{1, 2, 3};
};
// Made by whichever thread comes first.
static Made &made() {
    static Made only;
    return only;
}

struct Base {
    virtual ~Base() = default;
    virtual int value() const = 0;
};
struct Derived : Base {
    int value() const override { return 4; }
};

static int work(int self, std::shared_ptr<Base> base) {
    int sum = base->value() + made().parts[1];
    for (int i = 0; i < 3; i++) {
        { std::lock_guard<std::mutex> held(mutex); by_mutex++; }
        { std::scoped_lock held(mutex, other); by_both++; }
        { std::shared_lock<std::shared_mutex> held(shared); sum += by_readers; }
        { std::unique_lock<std::shared_mutex> held(shared); by_readers++; }
    }
    std::call_once(once, [] { by_once = 1; });
    sum += by_once;
    if (self == 0) {
        { std::lock_guard<std::mutex> held(mutex); told = "a text that is longer than what fits in place"; is_news = true; }
        news.notify_all();
        by_ready = 1;
        ready.store(1);
    } else {
        std::unique_lock<std::mutex> held(mutex);
        news.wait(held, [] { return is_news; });
        sum += (int)told.size();
        held.unlock();
        while (!ready.load()) std::this_thread::yield();
        sum += by_ready;
    }
    racy = sum; // RACE
    return sum;
}

int main() {
    std::shared_ptr<Base> base = std::make_shared<Derived>();
    std::vector<std::thread> threads;
    for (int k = 0; k < 2; k++) threads.emplace_back(work, k, base);
    for (auto &thread : threads) thread.join();
    std::printf("%d %d %d %d\n", by_mutex, by_both, by_readers, racy != 0);
}
