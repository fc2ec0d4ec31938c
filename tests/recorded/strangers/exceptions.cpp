// Exceptions that go from thread to thread.
#include <cstdio>
#include <exception>
#include <future>
#include <mutex>
#include <stdexcept>
#include <string>
#include <thread>
#include <vector>
static std::exception_ptr kept;
static std::mutex m;
static volatile int racy;
static void fails(std::promise<int> p) {
    try {
        throw std::runtime_error("a text that is longer than sixteen bytes");
    } catch (...) { p.set_exception(std::current_exception()); }
}
int main() {
    int sum = 0;
    for (int k = 0; k < 5; k++) {
        std::promise<int> p;
        auto f = p.get_future();
        std::thread t(fails, std::move(p));
        try {
            f.get();
        } catch (std::runtime_error &e) { sum += (int)std::string(e.what()).size(); }
        t.join();
        auto a =
            std::async(std::launch::async, []() -> int { throw std::logic_error("another text that is long enough"); });
        try {
            a.get();
        } catch (std::logic_error &e) { sum += e.what()[0] == 'a'; }
    }
    std::vector<std::thread> t;
    for (int k = 0; k < 3; k++)
        t.emplace_back([k] {
            try {
                throw k;
            } catch (...) {
                std::lock_guard<std::mutex> l(m);
                if (!kept) kept = std::current_exception();
            }
            racy = k; // RACE
        });
    for (auto &one : t) one.join();
    try {
        std::rethrow_exception(kept);
    } catch (int k) { sum += k >= 0; }
    std::printf("%d\n", sum);
}
