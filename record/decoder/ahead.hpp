// What one thread finds and another one uses, in its order. The first goes ahead by a bounded number of batches.
#pragma once
#include <condition_variable>
#include <deque>
#include <exception>
#include <mutex>
#include <system_error>
#include <thread>
#include <vector>

namespace ahead {

template <class Item> class Ahead {
public:
    // Whether a thread could be started that calls `find` with this object. Then `find` puts items.
    template <class Find> bool begin(Find find) {
        try {
            finder = std::thread([this, find] { run(find); });
        } catch (const std::system_error &) { return false; }
        return true;
    }
    ~Ahead() {
        if (!finder.joinable()) return;
        {
            std::lock_guard<std::mutex> guard(mutex);
            is_over = true;
        }
        has_room.notify_all();
        finder.join();
    }
    // Adds an item. False if nobody takes it any more.
    bool put(const Item &item) {
        filling.push_back(item);
        return filling.size() < AT_ONCE || pass_on();
    }
    // Takes all items, in their order. What stopped the finder is thrown again.
    template <class Use> void take(Use use) {
        for (Batch batch; next(batch);)
            for (const Item &item : batch) use(item);
        if (wrong) std::rethrow_exception(wrong);
    }

private:
    using Batch = std::vector<Item>;
    static constexpr size_t AT_ONCE = 512, MOST_BATCHES = 8;
    template <class Find> void run(Find find) {
        try {
            find(*this);
            pass_on();
        } catch (...) { wrong = std::current_exception(); }
        std::lock_guard<std::mutex> guard(mutex);
        is_found = true;
        has_batch.notify_all();
    }
    bool pass_on() {
        std::unique_lock<std::mutex> guard(mutex);
        has_room.wait(guard, [this] { return is_over || batches.size() < MOST_BATCHES; });
        if (is_over) return filling.clear(), false;
        batches.push_back(std::move(filling));
        filling = {};
        if (!empty.empty()) filling = std::move(empty.back()), empty.pop_back();
        has_batch.notify_one();
        return true;
    }
    bool next(Batch &batch) {
        std::unique_lock<std::mutex> guard(mutex);
        batch.clear();
        if (batch.capacity()) empty.push_back(std::move(batch));
        has_batch.wait(guard, [this] { return is_found || !batches.empty(); });
        if (batches.empty()) return false;
        batch = std::move(batches.front());
        batches.pop_front();
        has_room.notify_one();
        return true;
    }
    std::mutex mutex;
    std::condition_variable has_room, has_batch;
    std::deque<Batch> batches;
    std::vector<Batch> empty;
    Batch filling;
    bool is_found = false, is_over = false;
    std::exception_ptr wrong;
    std::thread finder;
};

}
