// A pool of threads; one of its tasks has a race.
#include <condition_variable>
#include <cstdio>
#include <functional>
#include <future>
#include <memory>
#include <mutex>
#include <queue>
#include <thread>
#include <vector>
class Pool {
public:
    explicit Pool(int n) {
        for (int k = 0; k < n; k++) threads.emplace_back([this] { run(); });
    }
    ~Pool() {
        {
            std::lock_guard<std::mutex> l(m);
            stop = true;
        }
        c.notify_all();
        for (auto &t : threads) t.join();
    }
    template <class F> auto submit(F f) -> std::future<decltype(f())> {
        auto task = std::make_shared<std::packaged_task<decltype(f())()>>(std::move(f));
        auto result = task->get_future();
        {
            std::lock_guard<std::mutex> l(m);
            tasks.push([task] { (*task)(); });
        }
        c.notify_one();
        return result;
    }

private:
    void run() {
        for (;;) {
            std::function<void()> task;
            {
                std::unique_lock<std::mutex> l(m);
                c.wait(l, [this] { return stop || !tasks.empty(); });
                if (tasks.empty()) return;
                task = std::move(tasks.front());
                tasks.pop();
            }
            task();
        }
    }
    std::vector<std::thread> threads;
    std::queue<std::function<void()>> tasks;
    std::mutex m;
    std::condition_variable c;
    bool stop = false;
};
static int total;
static std::string line;
int main() {
    std::vector<std::future<std::string>> results;
    size_t sum = 0;
    {
        Pool pool(4);
        for (int k = 0; k < 20; k++)
            results.push_back(pool.submit([k] {
                total += k; // RACE
                return std::string(30, static_cast<char>('a' + k));
            }));
        for (auto &r : results) sum += r.get().size();
    }
    std::printf("%zu\n", sum);
}
