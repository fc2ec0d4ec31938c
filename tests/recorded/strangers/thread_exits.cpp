// Futures that become ready, and waiters that are woken, when a thread ends. What the thread did before is no race; what
// it does behind a future that is ready at once is one.
#include <condition_variable>
#include <cstdio>
#include <future>
#include <mutex>
#include <thread>
static int before, behind, both, thrown;
int late;
static std::mutex m;
static std::condition_variable c;
static bool is_ready;

static int by_promise() {
    std::promise<int> p;
    auto f = p.get_future();
    std::thread t([&] {
        before = 1;
        p.set_value_at_thread_exit(3);
        behind = 2;
    });
    int sum = f.get() + before + behind;
    t.join();
    return sum;
}

static int by_exception() {
    std::promise<void> p;
    auto f = p.get_future();
    std::thread t([&] {
        p.set_exception_at_thread_exit(std::make_exception_ptr(5));
        thrown = 4;
    });
    try {
        f.get();
    } catch (int n) {
        thrown += n;
    }
    t.join();
    return thrown;
}

static int by_task() {
    std::packaged_task<int()> task([] { return both = 6; });
    auto f = task.get_future();
    std::thread t([&] {
        task.make_ready_at_thread_exit();
        both++;
    });
    int sum = f.get() + both;
    t.join();
    return sum;
}

static int by_condition() {
    std::thread t([] {
        std::unique_lock<std::mutex> l(m);
        is_ready = true;
        std::notify_all_at_thread_exit(c, std::move(l));
        both = 8;
    });
    {
        std::unique_lock<std::mutex> l(m);
        c.wait(l, [] { return is_ready; });
        both++;
    }
    t.join();
    return both;
}

static int at_once() {
    std::promise<int> p;
    auto f = p.get_future();
    std::thread t([&] {
        p.set_value(1);
        late = 1; // RACE
    });
    int sum = f.get();
    late = 2; // RACE
    t.join();
    return sum;
}

// Nobody has the future any more.
static void for_nobody() {
    std::thread([] {
        std::promise<int> p;
        p.set_value_at_thread_exit(1);
    }).join();
}

int main() {
    for_nobody();
    std::printf("%d %d %d %d %d\n", by_promise(), by_exception(), by_task(), by_condition(), at_once());
}
