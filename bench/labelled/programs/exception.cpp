// An exception is thrown in one thread and looked at in another. The racy twin changes it there before the join.
#include "pair.h"
#include <exception>
#include <thread>
struct failure {
    int code;
};
static std::exception_ptr caught;
static failure *kept;

int main() {
    std::thread first([] {
        try {
            throw failure{3};
        } catch (failure &one) {
            caught = std::current_exception(); // RACE
            kept = &one; // RACE
        }
    });
    IF_CLEAN(first.join());
    long seen = reinterpret_cast<long>(kept); // RACE
    IF_RACY(first.join());
    return seen == 9;
}
