// A stack without locks, whose nodes are handed on by compare-and-swap; a list that is published by an atomic pointer
// and read by others, as with RCU; a counter beside it.
#include <atomic>
#include <cstdio>
#include <thread>
#include <vector>
struct Node {
    int value;
    Node *next;
};
static std::atomic<Node *> top, published;
static int pops;
static void push(int value) {
    Node *n = new Node{value, top.load(std::memory_order_relaxed)};
    while (!top.compare_exchange_weak(n->next, n, std::memory_order_release, std::memory_order_relaxed)) {}
}
static Node *take_all() { return top.exchange(nullptr, std::memory_order_acquire); }
static int work(int self) {
    int sum = 0;
    for (int k = 0; k < 5; k++) {
        push(self * 10 + k);
        for (Node *n = take_all(), *next; n; n = next) {
            sum += n->value, next = n->next;
            delete n;
            pops++; // RACE
        }
        const Node *seen = published.load(std::memory_order_acquire);
        for (; seen; seen = seen->next) sum += 0 * seen->value;
        published.store(new Node{k, nullptr}, std::memory_order_release);
    }
    return sum;
}
int main() {
    int sums[3];
    std::vector<std::thread> t;
    for (int k = 0; k < 3; k++) t.emplace_back([k, &sums] { sums[k] = work(k); });
    for (auto &one : t) one.join();
    std::printf("%d\n", sums[0] + sums[1] + sums[2]);
}
