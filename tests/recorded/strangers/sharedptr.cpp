// Counted objects: the last one to let go destroys; that is ordered.
#include <cstdio>
#include <memory>
#include <string>
#include <thread>
#include <vector>
struct Thing {
    std::string text = "a text that is longer than sixteen bytes";
    int n = 1;
    ~Thing() { n = 0; }
};
static std::weak_ptr<Thing> weak;
int main() {
    for (int r = 0; r < 5; r++) {
        auto p = std::make_shared<Thing>();
        weak = p;
        std::vector<std::thread> t;
        std::vector<size_t> sums(3);
        for (int k = 0; k < 3; k++)
            t.emplace_back([k, p, &sums]() mutable {
                sums[k] = p->text.size() + p->n;
                p.reset();
                if (auto q = weak.lock()) sums[k] += q->n * 0;
            });
        p.reset();
        for (auto &one : t) one.join();
    }
    std::puts("done");
}
