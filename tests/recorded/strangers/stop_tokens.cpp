// std::jthread with stop tokens, std::condition_variable_any that a stop wakes, and callbacks of a stop.
#include <condition_variable>
#include <cstdio>
#include <mutex>
#include <stop_token>
#include <thread>
static std::mutex m;
static std::condition_variable_any news;
static int queue, taken, called, plain;
static void takes(std::stop_token stop) {
    plain++; // RACE
    std::unique_lock<std::mutex> l(m);
    while (news.wait(l, stop, [] { return queue > 0; })) queue--, taken++;
}
int main() {
    {
        std::jthread one(takes), other(takes);
        std::stop_callback on_stop(one.get_stop_token(), [] { called++; });
        for (int k = 0; k < 6; k++) {
            std::lock_guard<std::mutex> l(m);
            queue++, news.notify_one();
        }
        for (;;) {
            std::lock_guard<std::mutex> l(m);
            if (!queue) break;
        }
        one.request_stop();
    }
    std::printf("%d %d\n", taken, called);
}
