// Copies whose length the compiler knows.
#include <algorithm>
#include <array>
#include <cstdio>
#include <cstring>
#include <thread>
#include <vector>
static std::array<long, 6> a, b, c, d;
static std::vector<int> v(10);
static long sum;
int main() {
    std::array<long, 6> other{1, 2, 3, 4, 5, 6};
    std::thread w([&] {
        a = other;                                        // RACE a
        std::copy(other.begin(), other.end(), b.begin()); // RACE b
        std::fill(c.begin(), c.end(), 3);                 // RACE c
        std::memcpy(&d, &other, sizeof d);                // RACE d
        v.push_back(4);                                   // RACE e
    });
    std::thread r([] {
        sum += a[4]; // RACE a
        sum += b[5]; // RACE b
        sum += c[5]; // RACE c
        sum += d[1]; // RACE d
        sum += v[2]; // RACE e
    });
    w.join(), r.join();
    std::puts("done");
}
