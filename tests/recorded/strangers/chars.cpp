// Letters that from_chars reads, to_chars writes and a hash goes over, in code of the library of C++.
#include <charconv>
#include <cstdio>
#include <functional>
#include <mutex>
#include <string>
#include <thread>
static char read[8] = "12.5;;", other[8] = "2.5e3;", numbers[3][40], guarded[40];
static const char digits[] = "42.5";
static double value;
static float small;
static long double large;
static volatile double five = 5.25;
static std::string name = "a name";
static std::mutex m;
static thread_local volatile long seen;

static void guards() {
    std::lock_guard<std::mutex> l(m);
    std::to_chars(guarded, guarded + 40, static_cast<double>(five));
    seen += guarded[0];
}

static void fills() {
    double own;
    std::from_chars(read, read + 6, own);                                                             // RACE read
    std::from_chars(other, other + 6, own);                                                           // RACE other
    std::from_chars(digits, digits + 4, value);                                                       // RACE double
    std::from_chars(digits, digits + 4, small);                                                       // RACE float
    std::from_chars(digits, digits + 4, large);                                                       // RACE long
    std::to_chars(numbers[0], numbers[0] + 40, static_cast<double>(five));                            // RACE shortest
    std::to_chars(numbers[1], numbers[1] + 40, static_cast<float>(five), std::chars_format::fixed);   // RACE fixed
    std::to_chars(numbers[2], numbers[2] + 40, static_cast<long double>(five), std::chars_format::fixed, 9); // RACE digits
    seen += std::hash<std::string>()(name) != 0;                                                      // RACE hash
    guards();
}

static void looks() {
    read[3] = '6';                       // RACE read
    read[5] = '.';
    other[5] = '4';                      // RACE other
    seen += value > 1;                   // RACE double
    seen += small > 1;                   // RACE float
    seen += ((volatile char *)&large)[1]; // RACE long
    seen += numbers[0][3];               // RACE shortest
    seen += numbers[0][4];
    seen += numbers[1][3];               // RACE fixed
    seen += numbers[2][9];               // RACE digits
    name[3] = 'A';                       // RACE hash
    guards();
}

int main() {
    std::thread a(fills), b(looks);
    a.join(), b.join();
    std::printf("%.1f %.1f %s\n", value, small, guarded);
}
