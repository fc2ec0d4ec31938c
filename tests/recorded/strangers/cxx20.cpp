// What C++20 has for threads hands plain data on.
#include <atomic>
#include <barrier>
#include <condition_variable>
#include <cstdio>
#include <future>
#include <latch>
#include <memory>
#include <mutex>
#include <numeric>
#include <semaphore>
#include <shared_mutex>
#include <stop_token>
#include <thread>
#include <vector>
static int by_latch, by_barrier[3], by_sem, by_stop, by_flag, by_async, by_ref, by_once, by_shared, by_any, by_timed,
    by_ptr;
static std::latch latch(2);
static std::barrier meet(3);
static std::counting_semaphore<8> sem(0);
static std::binary_semaphore one(1);
static std::atomic_flag flag;
static int plain;
static std::once_flag once;
static std::shared_mutex rw;
static std::condition_variable_any any;
static std::mutex m;
static std::recursive_timed_mutex timed;
static std::atomic<int *> ptr;
static bool ready;
static volatile int racy;
static std::atomic<int> sum;
static void work(int k) {
    if (k == 0) by_latch = 1, latch.count_down();
    else if (k == 1) latch.arrive_and_wait(), sum += by_latch;
    by_barrier[k] = k;
    meet.arrive_and_wait();
    sum += by_barrier[(k + 1) % 3];
    if (k == 0) by_sem = 1, sem.release(2);
    else sem.acquire(), sum += by_sem;
    one.acquire(), by_once++, one.release();
    std::call_once(once, [] { by_shared = 3; });
    sum += by_shared;
    if (k == 0) by_flag = 1, flag.test_and_set(), flag.notify_all();
    else flag.wait(false), sum += by_flag;
    if (k == 2) {
        std::unique_lock l(rw);
        by_any = 1;
    } else {
        std::shared_lock l(rw);
        sum += by_any * 0;
    }
    {
        std::lock_guard a(timed), b(timed);
        by_timed++;
    }
    std::atomic_ref<int>(plain).fetch_add(1);
    if (k == 1) {
        std::unique_lock l(rw);
        ready = true;
        any.notify_all();
    } else {
        std::shared_lock l(rw);
        any.wait(l, [] { return ready; });
    }
    if (k == 0) {
        by_ptr = 4;
        ptr.store(new int(5));
        ptr.notify_all();
    } else {
        ptr.wait(nullptr);
        sum += *ptr.load() + by_ptr;
    }
    if (k) racy = k; // RACE
}
int main() {
    {
        std::vector<std::jthread> t;
        for (int k = 0; k < 3; k++) t.emplace_back(work, k);
    }
    {
        std::jthread s([](std::stop_token stop) {
            while (!stop.stop_requested()) std::this_thread::yield();
            plain++;
        });
        std::stop_callback c(s.get_stop_token(), [] { by_stop++; });
        s.request_stop();
    }
    auto f = std::async(std::launch::async, [] {
        by_async = 7;
        return 1;
    });
    std::packaged_task<int(int)> task([](int n) { return n + by_async; });
    auto g = task.get_future();
    f.wait();
    std::thread(std::move(task), 5).join();
    std::promise<void> p;
    std::shared_future<void> sf = p.get_future().share();
    std::thread a([sf] {
        sf.wait();
        sum += by_ref;
    }),
        b([sf] {
            sf.wait();
            sum += by_ref;
        });
    by_ref = 1, p.set_value();
    a.join(), b.join();
    std::printf("%d %d %d %d %d %d\n", (int)sum, g.get(), by_stop, by_timed, plain, by_once);
}
