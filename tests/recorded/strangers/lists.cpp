// Lists whose nodes change places under a lock for reading: each move of a node is a race with another, and moves under
// a lock for writing are none.
#include <cstdio>
#include <list>
#include <mutex>
#include <shared_mutex>
#include <thread>
static std::shared_mutex m;
static std::list<int> recent{1, 2, 3, 4}, turned{1, 2, 3}, sorted{3, 1, 2};
static std::list<int> left{1, 2}, right{3}, full{4, 5}, empty;

static void uses(int k) {
    std::shared_lock<std::shared_mutex> reading(m);
    if (k == 3) recent.splice(recent.begin(), recent, std::next(recent.begin())); // RACE splice
    if (k == 4 && *std::next(recent.begin()) == 9) std::puts("nine"); // RACE splice
}

static void turns() {
    std::shared_lock<std::shared_mutex> reading(m);
    turned.reverse(); // RACE reverse
}

// Heads change their nodes: the sizes change too, and so do the nodes after the heads.
static void swaps(int k) {
    std::shared_lock<std::shared_mutex> reading(m);
    if (k == 3) left.swap(right), full.swap(empty); // RACE swap
    if (k == 4 && left.front() + *std::prev(full.end()) == 9) std::puts("nine"); // RACE swap
}

// The nodes have the other head after them.
static void follows(int k) {
    static std::list<int> one{1}, two{2};
    static const auto first = two.begin();
    std::shared_lock<std::shared_mutex> reading(m);
    if (k == 3) one.swap(two); // RACE follows
    if (k == 4 && std::next(first) == std::list<int>::iterator()) std::puts("none"); // RACE follows
}

static void sorts() {
    std::unique_lock<std::shared_mutex> writing(m);
    sorted.sort();
    sorted.reverse();
    std::list<int> more{7, 8}, none;
    sorted.swap(none), std::swap(sorted, none), more.swap(more);
    sorted.sort();
    sorted.merge(more);
}

int main() {
    std::thread a([] { uses(3), turns(), swaps(3), follows(3), sorts(); }), b([] { uses(4), turns(), swaps(4), follows(4), sorts(); });
    a.join(), b.join();
    std::printf("%zu %d\n", sorted.size(), sorted.front());
}
