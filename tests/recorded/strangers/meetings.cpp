// Latches, barriers with a function of each phase, and semaphores of C++20. What comes after a thread's own arrival and
// before its wait is a race, and so is what a semaphore is not held for.
#include <barrier>
#include <chrono>
#include <cstdio>
#include <latch>
#include <semaphore>
#include <thread>
#include <vector>
int parts[4], sum, early, cells[3], seen[3], total, phases, dropped, ring[2], in, out, got, counter, ball;
volatile int late, before_wait, outside;
std::counting_semaphore<8> slots(2), items(0);
std::binary_semaphore lock(1), ping(0), pong(0);

template <class F> static void team(F f) {
    std::vector<std::jthread> t;
    for (int k = 0; k < 3; k++) t.emplace_back(f, k);
}
static void latches() {
    std::latch done(3), go(1);
    {
        std::vector<std::jthread> t;
        for (int k = 0; k < 3; k++) t.emplace_back([&, k] {
            go.wait();
            parts[k] = k + early;
            done.count_down();
            late = k; // RACE late
        });
        early = 1;
        go.count_down();
        done.wait();
        sum = parts[0] + parts[1] + parts[2];
    }
}
static void barriers() {
    auto complete = []() noexcept { total += cells[0] + cells[1] + cells[2], phases++; };
    std::barrier b(3, complete);
    team([&](int k) {
        for (int r = 0; r < 2; r++) {
            cells[k] = r + k;
            b.arrive_and_wait();
            seen[k] = total;
        }
        if (k == 0) {
            dropped = 1;
            b.arrive_and_drop();
            return;
        }
        auto token = b.arrive();
        before_wait = k; // RACE before
        b.wait(std::move(token));
        seen[k] += dropped;
    });
}
static void semaphores() {
    team([](int k) {
        for (int n = 0; n < 4; n++) {
            if (k == 0) {
                slots.acquire(), ring[in++ % 2] = n, items.release();
            } else if (k == 1) {
                while (!items.try_acquire_for(std::chrono::seconds(100))) {}
                got += ring[out++ % 2], slots.release();
            }
        }
        outside = k; // RACE outside
        lock.acquire(), counter++, lock.release();
        if (k == 0) ball++, ping.release(), pong.acquire(), ball++;
        if (k == 1) ping.acquire(), ball++, pong.release();
    });
}
int main() {
    latches(), barriers(), semaphores();
    std::printf("%d %d %d %d %d %d\n", sum, total, phases, got, counter, ball);
}
