// A balanced tree is turned and colored in code of the library of C++: each link and color that only this writes races
// with a look at it.
#include <cstdio>
#include <iterator>
#include <map>
#include <mutex>
#include <set>
#include <thread>
using set = std::set<int>;
static set turned{10, 20}, twice{10, 30}, colored{10, 5, 15}, root{10, 5, 15, 20}, mended{10, 5, 15, 20};
static set far_red{20, 10, 30, 25}, near_red{20, 10, 30, 15}, replaced{10, 5, 15}, deep{10, 5, 20, 15};
static set::iterator of_turned = turned.begin(), of_twice = twice.begin(), of_colored = std::prev(colored.end());
static set::iterator of_root = std::next(root.begin()), of_mended = std::next(mended.begin());
static set::iterator of_far = std::next(far_red.find(20)), of_near = near_red.find(15);
static set::iterator of_replaced = replaced.begin(), of_deep = std::next(deep.begin(), 2);
static std::map<int, int> unlocked, locked;
static std::mutex m;
// Nodes that are taken out are kept, so that no free races.
static set::node_type kept[5];
static thread_local volatile bool seen;

static void locks(int key) {
    std::lock_guard<std::mutex> l(m);
    locked[key] = key;
    locked.erase(key - 1);
}

static void writes() {
    turned.insert(30);                             // RACE turned
    twice.insert(20);                              // RACE twice
    colored.insert(1);                             // RACE colored
    root.insert(25);                               // RACE root
    kept[0] = mended.extract(mended.begin());      // RACE mended
    kept[1] = far_red.extract(far_red.begin());    // RACE far
    kept[2] = near_red.extract(std::prev(near_red.end())); // RACE near
    kept[3] = replaced.extract(std::next(replaced.begin())); // RACE replaced
    kept[4] = deep.extract(std::next(deep.begin())); // RACE deep
    for (int k = 0; k < 12; k++) locks(k);
    for (int k = 0; k < 6; k++) unlocked[k] = k;   // RACE unlocked
}

static void looks() {
    seen = std::next(of_turned) == turned.end();   // RACE turned
    seen = std::next(of_twice) == twice.end();     // RACE twice
    seen = std::prev(of_colored) == turned.end();  // RACE colored
    seen = std::next(of_root) == root.end();       // RACE root
    seen = std::next(of_mended) == mended.end();   // RACE mended
    seen = std::next(of_far) == far_red.end();     // RACE far
    seen = std::prev(of_near) == near_red.end();   // RACE near
    seen = std::next(of_replaced) == set().end();  // RACE replaced
    seen = std::next(of_deep) == set().end();      // RACE deep
    for (int k = 20; k < 32; k++) locks(k);
    unlocked.insert({100, 1});                     // RACE unlocked
}

int main() {
    std::thread a(writes), b(looks);
    a.join(), b.join();
    int sum = 0;
    for (auto &pair : locked) sum += pair.second;
    std::printf("%d\n", sum);
}
