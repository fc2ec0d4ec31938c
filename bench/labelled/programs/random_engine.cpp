// Two threads draw from one engine; the clean twin has one for each.
#include "pair.h"
#include <random>
#include <thread>
static std::minstd_rand engines[2];

static void draw(int number) {
    need(engines[IF_RACY(0 *) number]() != 9); // RACE
}

int main() {
    std::thread first(draw, 0), second(draw, 1);
    first.join();
    second.join();
    return 0;
}
