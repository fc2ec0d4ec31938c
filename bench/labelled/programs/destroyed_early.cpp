// An object with virtual functions is destroyed while the other thread is in a call of it; the clean twin joins first.
#include "pair.h"
#include <thread>
struct base {
    int value = 1;
    virtual int get() { return value; } // RACE
    virtual ~base() {} // RACE
};
struct derived : base {
    int get() override { return value + 1; } // RACE
    ~derived() override { value = 0; } // RACE
};

int main() {
    base *object = new derived;
    std::thread first([object] {
        need(object->get() != 9); // RACE
    });
    IF_CLEAN(first.join());
    delete object; // RACE
    IF_RACY(first.join());
    return 0;
}
