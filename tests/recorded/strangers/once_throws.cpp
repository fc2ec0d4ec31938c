// std::call_once whose function throws calls again, and a static whose making throws is made again; thread_local objects are made and destroyed by their
// thread.
#include <atomic>
#include <cstdio>
#include <mutex>
#include <stdexcept>
#include <thread>
#include <vector>
static std::once_flag flag;
static int tries, static_tries, value, seen[4];
static std::atomic<int> destroyed{0};
static volatile int last;
struct Local {
    int n = 0;
    ~Local() {
        destroyed++;
        last = n; // RACE
    }
};
static thread_local Local local;
static void make() {
    if (++tries < 3) throw std::runtime_error("not yet");
    value = 42;
}
static int fails_twice() {
    if (++static_tries < 3) throw std::runtime_error("not yet");
    return 7;
}
static int by_static() {
    static int made = fails_twice();
    return made;
}
static void work(int self) {
    for (;;) try {
            std::call_once(flag, make);
            seen[self] = by_static();
            break;
        } catch (const std::runtime_error &) {
        }
    local.n = self, seen[self] += value;
}
int main() {
    std::vector<std::thread> t;
    for (int k = 0; k < 4; k++) t.emplace_back(work, k);
    for (auto &one : t) one.join();
    std::printf("%d %d %d\n", tries + static_tries, seen[0] + seen[1] + seen[2] + seen[3], +destroyed);
}
