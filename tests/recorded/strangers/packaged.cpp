// A pool that runs std::packaged_task: what a task made is there for who has its future; an exception comes through.
#include <condition_variable>
#include <cstdio>
#include <deque>
#include <future>
#include <mutex>
#include <stdexcept>
#include <thread>
#include <vector>
class Pool {
  public:
    explicit Pool(int n) {
        for (int k = 0; k < n; k++) threads_.emplace_back([this] { run(); });
    }
    ~Pool() {
        {
            std::lock_guard<std::mutex> l(m_);
            ends_ = true;
        }
        news_.notify_all();
        for (auto &t : threads_) t.join();
    }
    template <class F> auto add(F f) {
        std::packaged_task<decltype(f())()> task(std::move(f));
        auto future = task.get_future();
        {
            std::lock_guard<std::mutex> l(m_);
            tasks_.emplace_back(std::move(task));
        }
        news_.notify_one();
        return future;
    }
    int ran = 0;

  private:
    void run() {
        for (;;) {
            std::unique_lock<std::mutex> l(m_);
            news_.wait(l, [this] { return ends_ || !tasks_.empty(); });
            if (tasks_.empty()) return;
            auto task = std::move(tasks_.front());
            tasks_.pop_front();
            l.unlock();
            task();
            ran++; // RACE
        }
    }
    std::mutex m_;
    std::condition_variable news_;
    std::deque<std::packaged_task<int()>> tasks_;
    std::vector<std::thread> threads_;
    bool ends_ = false;
};
int main() {
    int sum = 0, caught = 0;
    {
        Pool pool(3);
        std::vector<std::future<int>> made;
        for (int k = 0; k < 8; k++)
            made.push_back(pool.add([k] {
                if (k == 5) throw std::runtime_error("five");
                return k * k;
            }));
        for (auto &one : made) try {
                sum += one.get();
            } catch (const std::runtime_error &) {
                caught++;
            }
    }
    std::shared_future<int> later = std::async(std::launch::async, [&sum] { return sum + 1; }).share();
    std::thread reader([later, &sum] { sum += later.get(); });
    reader.join();
    std::printf("%d %d\n", sum, caught);
}
