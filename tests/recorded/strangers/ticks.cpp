// Timers that interrupt every wait, and handlers that only count by atomics; nothing is lost, nothing hangs. The
// threads go on until handlers have run in the main thread and in others.
#include <atomic>
#include <condition_variable>
#include <csignal>
#include <cstdio>
#include <mutex>
#include <pthread.h>
#include <sys/time.h>
#include <thread>
#include <unistd.h>
#include <vector>
// A handler may come where it is not recorded, so one of each is not enough.
enum { COUNTED = 50, ENOUGH = 5, MOST = 1500 };
static std::atomic<long> ticks, of_main, of_others;
static volatile int plain_ticks;
static pthread_t main_thread;
static thread_local volatile bool waits;
static std::mutex m;
static std::condition_variable c;
static int turn, total;
static bool ended;
static void on_alarm(int) {
    ticks++;
    if (!waits) return;
    (pthread_equal(pthread_self(), main_thread) ? of_main : of_others)++;
    plain_ticks = plain_ticks + 1; // RACE
}
static bool have_met() { return of_main >= ENOUGH && of_others >= ENOUGH; }
static void work(int k) {
    for (int i = 0; i < MOST; i++) {
        std::unique_lock<std::mutex> l(m);
        waits = true;
        c.wait(l, [k] { return ended || turn % 4 == k; });
        waits = false;
        if (i < COUNTED) total++;
        else ended = ended || have_met() || i == MOST - 1;
        turn++;
        c.notify_all();
        if (ended) return;
        if (i >= COUNTED) usleep(5000);
    }
}
// The system prefers the main thread, so this lets the others come first.
static void let_others_come() {
    sigset_t alarm;
    sigemptyset(&alarm);
    sigaddset(&alarm, SIGALRM);
    pthread_sigmask(SIG_BLOCK, &alarm, nullptr);
    for (int k = 0; k < MOST && of_others < ENOUGH; k++) usleep(5000);
    pthread_sigmask(SIG_UNBLOCK, &alarm, nullptr);
}
int main() {
    main_thread = pthread_self();
    signal(SIGALRM, on_alarm);
    itimerval often{{0, 300}, {0, 300}}, never{};
    setitimer(ITIMER_REAL, &often, nullptr);
    std::vector<std::thread> t;
    for (int k = 0; k < 4; k++) t.emplace_back(work, k);
    let_others_come();
    waits = true;
    for (auto &one : t) one.join();
    setitimer(ITIMER_REAL, &never, nullptr);
    std::printf("%d\n", total);
    if (!have_met()) std::printf("handlers: %ld in the main thread, %ld in others\n", +of_main, +of_others);
}
