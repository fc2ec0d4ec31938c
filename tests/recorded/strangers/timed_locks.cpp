// Locks with times: timed, recursive and shared ones, tried and waited for; several at once by std::scoped_lock and
// std::lock; what is counted without them races.
#include <chrono>
#include <cstdio>
#include <mutex>
#include <shared_mutex>
#include <thread>
#include <vector>
using namespace std::chrono_literals;
static std::timed_mutex timed;
static std::recursive_timed_mutex again;
static std::shared_timed_mutex shared;
static std::mutex left, right;
static int by_timed, by_again, by_shared, by_both, late;
static volatile int plain;
static int depth(int n) {
    std::unique_lock<std::recursive_timed_mutex> l(again, 600s);
    return l.owns_lock() ? n ? depth(n - 1) + 1 : ++by_again * 0 : -1000;
}
static int reads() {
    std::shared_lock<std::shared_timed_mutex> l(shared, 600s);
    return l.owns_lock() ? by_shared : -1000;
}
static void work(int self, int *sum) {
    for (int k = 0; k < 4; k++) {
        if (timed.try_lock_for(600s)) by_timed++, timed.unlock();
        *sum += depth(2);
        if (shared.try_lock_until(std::chrono::steady_clock::now() + 600s)) by_shared++, shared.unlock();
        *sum += reads() > 0;
        if (self % 2) {
            std::scoped_lock l(left, right);
            by_both++;
        } else {
            std::lock(right, left);
            by_both++, left.unlock(), right.unlock();
        }
        plain = plain + 1; // RACE
    }
}
static void comes_late() {
    std::thread other([] {
        late += !timed.try_lock_for(2ms);
        late += !shared.try_lock_shared_for(2ms);
    });
    other.join();
}
int main() {
    int sums[3] = {};
    std::vector<std::thread> t;
    for (int k = 0; k < 3; k++) t.emplace_back(work, k, &sums[k]);
    for (auto &one : t) one.join();
    timed.lock(), shared.lock();
    comes_late();
    timed.unlock(), shared.unlock();
    std::printf("%d %d %d %d %d %d\n", by_timed, by_again, by_shared, by_both, late, sums[0] + sums[1] + sums[2]);
}
