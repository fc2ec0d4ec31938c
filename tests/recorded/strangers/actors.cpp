// Messages through a queue with a lock; objects change their owner, and are freed by it.
#include <condition_variable>
#include <cstdio>
#include <deque>
#include <map>
#include <memory>
#include <mutex>
#include <set>
#include <sstream>
#include <string>
#include <thread>
#include <unordered_map>
#include <vector>
struct Message {
    std::string text;
    std::vector<int> numbers;
    std::map<std::string, int> table;
};
template <class T> class Channel {
    std::mutex m;
    std::condition_variable c;
    std::deque<T> q;
    bool over = false;

public:
    void send(T t) {
        {
            std::lock_guard<std::mutex> l(m);
            q.push_back(std::move(t));
        }
        c.notify_one();
    }
    bool receive(T &t) {
        std::unique_lock<std::mutex> l(m);
        c.wait(l, [&] { return over || !q.empty(); });
        if (q.empty()) return false;
        t = std::move(q.front());
        q.pop_front();
        return true;
    }
    void close() {
        {
            std::lock_guard<std::mutex> l(m);
            over = true;
        }
        c.notify_all();
    }
};
static Channel<std::unique_ptr<Message>> to, back;
int main() {
    std::vector<std::thread> t;
    for (int k = 0; k < 3; k++)
        t.emplace_back([] {
            std::unique_ptr<Message> p;
            while (to.receive(p)) {
                p->text += " was seen";
                p->numbers.push_back(1);
                p->table["seen"]++;
                std::ostringstream s;
                s << p->text << p->numbers.size();
                p->text = s.str();
                back.send(std::move(p));
            }
        });
    for (int k = 0; k < 12; k++) {
        auto p = std::make_unique<Message>();
        p->text = "message " + std::to_string(k);
        p->table["made"] = k;
        to.send(std::move(p));
    }
    size_t all = 0;
    std::set<std::string> seen;
    std::unordered_map<int, std::string> by;
    for (int k = 0; k < 12; k++) {
        std::unique_ptr<Message> p;
        back.receive(p);
        all += p->text.size() + p->table.size();
        seen.insert(p->text);
        by[k] = p->text;
        for (auto &e : p->table) all += e.first.size();
    }
    to.close();
    for (auto &one : t) one.join();
    std::printf("%zu %zu\n", seen.size(), by.size());
}
