// As marks.c, by the library of C++.
#include <chrono>
#include <mutex>
#include <shared_mutex>
#include <thread>
using namespace std::chrono_literals;
static std::mutex plain, other;
static std::timed_mutex timed;
static std::recursive_timed_mutex again;
static std::shared_mutex shared;
static std::shared_timed_mutex both;
static int taken;

static void mutexes() {
    plain.lock(); // WAITS
    plain.unlock();
    taken += plain.try_lock(); // TRY
    plain.unlock();
    taken += timed.try_lock(); // TRY
    timed.unlock();
    taken += timed.try_lock_for(1h); // TRY
    timed.unlock();
    taken += timed.try_lock_until(std::chrono::system_clock::now() + 1h); // TRY
    timed.unlock();
    taken += again.try_lock_for(1h); // TRY
    again.unlock();
    std::unique_lock<std::mutex> one(other, std::try_to_lock); // TRY
}
static void readers() {
    shared.lock(); // WAITS
    shared.unlock();
    shared.lock_shared(); // WAITS
    shared.unlock_shared();
    taken += shared.try_lock(); // TRY
    shared.unlock();
    taken += shared.try_lock_shared(); // TRY
    shared.unlock_shared();
    taken += both.try_lock_for(1h); // TRY
    both.unlock();
    taken += both.try_lock_shared_for(1h); // TRY
    both.unlock_shared();
}
int main() {
    std::thread all([] {
        mutexes();
        readers();
    });
    all.join();
    return taken == 9 ? 0 : 1;
}
