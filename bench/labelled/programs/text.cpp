// A text is appended to while the other thread reads its length; the clean twin has a mutex.
#include "pair.h"
#include <mutex>
#include <string>
#include <thread>
static std::mutex mutex;
static std::string text = "a text that is too long for the object itself";

int main() {
    std::thread first([] {
        IF_CLEAN(std::lock_guard<std::mutex> held(mutex));
        text += " and grows"; // RACE
    });
    std::thread second([] {
        IF_CLEAN(std::lock_guard<std::mutex> held(mutex));
        need(text.size() != 9); // RACE
    });
    first.join();
    second.join();
    return 0;
}
