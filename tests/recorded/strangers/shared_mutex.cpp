// A cache under std::shared_mutex: readers look, a writer fills; who fills without looking again fills twice, and who
// counts under the shared lock races.
#include <cstdio>
#include <map>
#include <mutex>
#include <shared_mutex>
#include <string>
#include <thread>
#include <vector>
static std::shared_mutex m;
static std::map<int, std::string> cache;
static int made, hits;
static std::string look(int key) {
    {
        std::shared_lock<std::shared_mutex> l(m);
        auto at = cache.find(key);
        if (at != cache.end()) {
            hits++; // RACE
            return at->second;
        }
    }
    std::unique_lock<std::shared_mutex> l(m);
    auto &place = cache[key];
    if (place.empty()) place = "value of a key " + std::to_string(key), made++;
    return place;
}
static size_t lengths[3];
static void work(int self) {
    for (int k = 0; k < 12; k++) lengths[self] += look(k % 4).size();
}
int main() {
    std::vector<std::thread> t;
    for (int k = 0; k < 3; k++) t.emplace_back(work, k);
    for (auto &one : t) one.join();
    std::printf("%d %zu\n", made, lengths[0] + lengths[1] + lengths[2]);
}
