// A string, a map and a list that two threads change without a lock.
#include <cstdio>
#include <list>
#include <map>
#include <string>
#include <thread>
static std::string text = "0123456789";
static std::string other = "0123456789";
static std::map<int, int> table;
static std::list<int> items;
static size_t sum;
int main() {
    for (int k = 0; k < 20; k += 2) table[k] = k;
    std::thread w([] {
        text = "another text that is longer"; // RACE a
        other += "x";                         // RACE b
        table[7] = 5;                         // RACE c
        items.push_back(3);                   // RACE d
    });
    std::thread r([] {
        sum += text.size();           // RACE a
        sum += other.back();          // RACE b
        sum += table.count(7);        // RACE c
        for (int n : items) sum += n; // RACE d
    });
    w.join(), r.join();
    std::puts("done");
}
