// Statics of functions, in a program that is linked with the library of C++ itself.
#include <cstdio>
#include <string>
#include <thread>
#include <vector>
static volatile int racy;
struct Thing {
    std::string name;
    int n = 5;
    Thing() : name("a name that is longer than sixteen bytes") {}
};
static Thing &thing() {
    static Thing one;
    return one;
}
int main() {
    std::vector<std::thread> t;
    std::vector<size_t> sums(3);
    for (int k = 0; k < 3; k++)
        t.emplace_back([k, &sums] {
            sums[k] = thing().name.size() + thing().n;
            racy = k; // RACE
        });
    for (auto &one : t) one.join();
    try {
        throw std::string("thrown");
    } catch (std::string &s) { std::printf("%s %zu\n", s.c_str(), sums[0]); }
}
