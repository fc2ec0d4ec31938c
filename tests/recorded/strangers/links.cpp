// Each link of a node that the library of C++ writes races with a look at this link alone.
#include <atomic>
#include <cstdio>
#include <iterator>
#include <list>
#include <set>
#include <thread>
using list = std::list<int>;
using set = std::set<int>;
static const list::iterator none;

// The nodes from `first` up to `last` move: three links forward and three back.
struct move {
    list from{1, 2, 3, 4}, to{6, 7};
    list::iterator before_first = from.begin(), first = std::next(before_first), end = std::next(first);
    list::iterator last = std::next(end), ahead = to.begin(), at = std::next(ahead);
};
static move moves[6];
#define MOVE(k) moves[k].to.splice(moves[k].at, moves[k].from, moves[k].first, moves[k].last)

struct nodes {
    list all{1, 2, 3};
    list::iterator first = all.begin(), second = std::next(first), third = std::next(second);
};
static nodes hooked[3], unhooked[2], swapped[2];
static list other[2];

struct tree {
    set all{10, 5, 15};
    set::iterator last = std::prev(all.end()), middle = std::prev(last), first = std::prev(middle);
};
static tree grown[4], cut[4];
static set empty, single{1};
// Nodes that are taken out are kept, so that no free races.
static set::node_type kept[5];
static std::atomic<bool> has_looked;
static std::atomic<list::iterator> new_node;
static std::atomic<set::iterator> new_leaf;
static thread_local volatile bool seen;

static void writes() {
    MOVE(0);                                               // RACE end
    MOVE(1);                                               // RACE behind
    MOVE(2);                                               // RACE ahead
    MOVE(3);                                               // RACE at
    MOVE(4);                                               // RACE last
    MOVE(5);                                               // RACE first
    hooked[0].all.insert(hooked[0].second, 5);             // RACE hookednext
    hooked[1].all.insert(hooked[1].second, 5);             // RACE hookedback
    unhooked[0].all.erase(unhooked[0].second);             // RACE unhookednext
    unhooked[1].all.erase(unhooked[1].second);             // RACE unhookedback
    swapped[0].all.swap(other[0]);                         // RACE swappednext
    swapped[1].all.swap(other[1]);                         // RACE swappedback
    auto node = hooked[2].all.insert(hooked[2].second, 5); // RACE node
    new_node.store(node, std::memory_order_relaxed);
    auto leaf = grown[3].all.insert(12).first;             // RACE leaf
    new_leaf.store(leaf, std::memory_order_relaxed);
    grown[1].all.insert(20);                               // RACE grownlast
    grown[2].all.insert(1);                                // RACE grownfirst
    kept[1] = cut[1].all.extract(cut[1].last);             // RACE cutlast
    kept[2] = cut[2].all.extract(cut[2].first);            // RACE cutfirst
    kept[3] = cut[3].all.extract(cut[3].first);            // RACE cutleft
    kept[4] = single.extract(single.begin());              // RACE single
    while (!has_looked.load(std::memory_order_relaxed)) {}
    grown[0].all.insert(12);                               // RACE grown
    empty.insert(1);                                       // RACE root
    kept[0] = cut[0].all.extract(cut[0].last);             // RACE cut
}

// What is looked at first is changed last: then there are no new nodes to meet.
static void looks() {
    seen = std::prev(grown[0].last) == grown[0].first;                            // RACE grown
    seen = empty.find(3) == empty.end();                                          // RACE root
    seen = std::next(cut[0].middle) == cut[0].first;                              // RACE cut
    has_looked.store(true, std::memory_order_relaxed);
    seen = std::next(moves[0].end) == none;                                       // RACE end
    seen = std::next(moves[1].before_first) == none;                              // RACE behind
    seen = std::next(moves[2].ahead) == none;                                     // RACE ahead
    seen = std::prev(moves[3].at) == none;                                        // RACE at
    seen = std::prev(moves[4].last) == none;                                      // RACE last
    seen = std::prev(moves[5].first) == none;                                     // RACE first
    seen = std::next(hooked[0].first) == none;                                    // RACE hookednext
    seen = std::prev(hooked[1].second) == none;                                   // RACE hookedback
    seen = std::next(unhooked[0].first) == none;                                  // RACE unhookednext
    seen = std::prev(unhooked[1].third) == none;                                  // RACE unhookedback
    seen = std::next(swapped[0].third) == none;                                   // RACE swappednext
    seen = std::prev(swapped[1].first) == none;                                   // RACE swappedback
    while (new_node.load(std::memory_order_relaxed) == none) {}
    seen = std::next(new_node.load(std::memory_order_relaxed)) == none;           // RACE node
    while (new_leaf.load(std::memory_order_relaxed) == set::iterator()) {}
    seen = std::next(new_leaf.load(std::memory_order_relaxed)) == grown[3].first; // RACE leaf
    seen = std::prev(grown[1].all.end()) == grown[1].first;                       // RACE grownlast
    seen = grown[2].all.begin() == grown[2].last;                                 // RACE grownfirst
    seen = std::prev(cut[1].all.end()) == cut[1].first;                           // RACE cutlast
    seen = cut[2].all.begin() == cut[2].last;                                     // RACE cutfirst
    seen = std::prev(cut[3].middle) == cut[3].last;                               // RACE cutleft
    seen = single.find(3) == single.end();                                        // RACE single
}

int main() {
    std::thread a(writes), b(looks);
    a.join(), b.join();
    std::puts("done");
}
