// Variables of classes, namespaces and templates, whose names are judged. Two threads use each.
#include <atomic>
#include <map>
#include <mutex>
#include <thread>
#include <utility>
#include <vector>

namespace shop {
struct Base {
    int id;
};
struct Item : Base {
    int price;
};
// Each base is as long as if its own virtual base were in it.
struct Root {
    int root[6];
};
struct Left : virtual Root {
    int left;
};
struct Right : virtual Root {
    int right;
};
struct Both : Left, Right {
    int both;
    unsigned a : 3, b : 5;
};
static Both both;
struct Pool {
    std::mutex mutex_;
    std::vector<Item> items_;
    bool stopping_;
    std::atomic<bool> done_;
    Item last_;
};
static Pool pool;
namespace {
int hidden[3];
}
class Counter {
public:
    static int total;
    static int next() {
        static int last;
        return ++last;
    }
};
int Counter::total;
template <class T> struct Table {
    static T slot;
};
template <class T> T Table<T>::slot;
}
std::pair<int, long> pairs[4];

static void work() {
    {
        std::lock_guard<std::mutex> held(shop::pool.mutex_);
        shop::pool.items_[1].price++;
        shop::pool.last_.id++;
    }
    shop::pool.stopping_ = true;
    shop::pool.done_ = true;
    shop::hidden[2]++;
    shop::Counter::total++;
    shop::Counter::next();
    shop::Table<long>::slot++;
    pairs[2].second++;
    shop::both.left++, shop::both.right++, shop::both.both++, shop::both.b++;
    auto tick = [] {
        static int ticks;
        return ++ticks;
    };
    tick();
}

int main() {
    shop::pool.items_ = std::vector<shop::Item>(3);
    std::thread a(work), b(work);
    a.join();
    b.join();
    return 0;
}
