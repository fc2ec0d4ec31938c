// Waits for atomic variables in each of the places where the library counts who waits; of a race that only such a count
// could order, and of what a variable that is waited for passes on.
#include <atomic>
#include <cstdio>
#include <thread>
static constexpr int PLACES = 32;
static std::atomic<int> narrow[PLACES];
static std::atomic<long> wide[PLACES];
static int by_narrow[PLACES], by_wide[PLACES], beside_narrow, beside_wide;

static void hears() {
    int sum = 0;
    for (int k = 0; k < PLACES; k++) {
        narrow[k].wait(0, std::memory_order_acquire);
        sum += by_narrow[k];
        wide[k].wait(0, std::memory_order_acquire);
        sum += by_wide[k];
    }
    std::printf("%d\n", sum);
    for (int k = 0; k < PLACES; k++) {
        beside_narrow++; // RACE narrow
        narrow[k].notify_all();
        beside_wide++; // RACE wide
        wide[k].notify_all();
    }
}

static void tells() {
    for (int k = 0; k < PLACES; k++) {
        by_narrow[k] = 1, narrow[k].store(1, std::memory_order_release), narrow[k].notify_one();
        by_wide[k] = 1, wide[k].store(1, std::memory_order_release), wide[k].notify_all();
    }
    for (int k = 0; k < PLACES; k++) {
        narrow[k].wait(0);
        beside_narrow++; // RACE narrow
        wide[k].wait(0);
        beside_wide++; // RACE wide
    }
}

int main() {
    std::thread a(hears), b(tells);
    a.join(), b.join();
}
