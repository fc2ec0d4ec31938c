// What several workers make side by side and what is used in the order of its numbers. A bounded number of items waits.
#pragma once
#include <condition_variable>
#include <functional>
#include <map>
#include <mutex>
#include <utility>
#include <vector>

namespace turns {

template <class Item> class Turns {
public:
    // `use` gets each item in its turn, from one worker at a time, and leaves it empty.
    Turns(size_t most, std::function<void(Item &)> use) : most(most), use(std::move(use)) {}
    // The number of an item that nobody makes yet, and an empty item. Whoever asks gives the item later.
    std::pair<size_t, Item> next() {
        std::lock_guard<std::mutex> guard(mutex);
        std::pair<size_t, Item> found{begun++, Item{}};
        if (!empty.empty()) found.second = std::move(empty.back()), empty.pop_back();
        return found;
    }
    // Gives an item. It is used here if those before it are used, and else by another worker. False if all is over.
    bool give(size_t number, Item &&item) {
        std::unique_lock<std::mutex> guard(mutex);
        changed.wait(guard, [&] { return is_over || number < used + most; });
        if (!is_over) waiting.emplace(number, std::move(item));
        while (!is_over && !is_using && !waiting.empty() && waiting.begin()->first == used) use_next(guard);
        return !is_over;
    }
    // Uses what there is of an item, when those before it are used.
    bool give_part(size_t number, Item &item) {
        std::unique_lock<std::mutex> guard(mutex);
        changed.wait(guard, [&] { return is_over || (number == used && !is_using); });
        if (is_over) return false;
        guard.unlock();
        use(item);
        return true;
    }
    // A worker can't go on, so nobody waits any more.
    void end() {
        std::lock_guard<std::mutex> guard(mutex);
        is_over = true;
        changed.notify_all();
    }

private:
    void use_next(std::unique_lock<std::mutex> &guard) {
        Item item = std::move(waiting.begin()->second);
        waiting.erase(waiting.begin());
        is_using = true;
        guard.unlock();
        use(item);
        guard.lock();
        is_using = false;
        used++;
        empty.push_back(std::move(item));
        changed.notify_all();
    }
    const size_t most;
    const std::function<void(Item &)> use;
    std::mutex mutex;
    std::condition_variable changed;
    std::map<size_t, Item> waiting;
    std::vector<Item> empty;
    size_t begun = 0, used = 0;
    bool is_using = false, is_over = false;
};

}
