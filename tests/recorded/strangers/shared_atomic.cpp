// A pointer with an owner in an atomic: stored, loaded, exchanged, compared, waited for; what it has is passed on.
#include <atomic>
#include <cstdio>
#include <cstdlib>
#include <memory>
#include <thread>
struct News {
    int number;
};
static std::atomic<std::shared_ptr<News>> last;
static std::atomic<std::weak_ptr<News>> seen;
static int before_first, before_weak, unguarded;

static void tells() {
    before_first = 1;
    auto first = std::make_shared<News>(News{1});
    last.store(first);
    before_weak = 2;
    seen.store(first);
    auto second = std::make_shared<News>(News{2});
    last.compare_exchange_strong(first, second, std::memory_order_acq_rel);
    auto expected = second;
    while (!last.compare_exchange_weak(expected, std::make_shared<News>(News{3}))) expected = second;
    unguarded++; // RACE
    last.notify_all();
}

static void hears() {
    std::shared_ptr<News> got;
    while (!(got = last.load(std::memory_order_acquire))) std::this_thread::yield();
    int sum = before_first;
    while (got->number != 3) {
        last.wait(got);
        got = last.load();
    }
    if (auto weak = seen.load(); weak.use_count() >= 0) sum += before_weak;
    last.exchange(nullptr);
    std::printf("%d\n", sum + got->number);
    unguarded++; // RACE
}

int main() {
    std::thread a(hears), b(tells);
    a.join(), b.join();
    return before_first == 0;
}
