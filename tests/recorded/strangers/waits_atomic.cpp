// Waits of C++20: atomics that are waited for and notified, atomic_flag, semaphores and a latch with times, a barrier
// whose end runs a function.
#include <atomic>
#include <barrier>
#include <chrono>
#include <cstdio>
#include <latch>
#include <semaphore>
#include <thread>
#include <vector>
using namespace std::chrono_literals;
static std::atomic<int> state{0};
static std::atomic_flag ready;
static std::counting_semaphore<8> given(0);
static std::binary_semaphore never(0);
static std::latch all_there(3);
static int by_state, by_flag, by_semaphore, phases, late;
static volatile int plain;
static std::barrier phase(3, []() noexcept { phases++; });
static void first() {
    by_state = 1, state.store(1), state.notify_all();
    by_flag = 2, ready.test_and_set(), ready.notify_one();
    by_semaphore = 3, given.release();
}
static int second() {
    state.wait(0);
    int sum = by_state;
    ready.wait(false);
    sum += by_flag;
    while (!given.try_acquire_for(1ms)) {}
    return sum + by_semaphore;
}
static void work(int self, int *sum) {
    plain = self; // RACE
    all_there.arrive_and_wait();
    if (self == 0) first();
    if (self == 1) *sum = second();
    if (self == 2) late += !never.try_acquire_for(2ms);
    phase.arrive_and_wait();
    if (self == 1) *sum += phases;
    phase.arrive_and_wait();
}
int main() {
    int sum = 0;
    std::vector<std::thread> t;
    for (int k = 0; k < 3; k++) t.emplace_back(work, k, &sum);
    for (auto &one : t) one.join();
    std::printf("%d %d %d\n", sum, late, phases);
}
