/* Prints a trace of two threads. Its first COUNT events read a new variable each at a new place. MORE events follow:
 * reads whose place and variable, hashed without a key as pairs of numbers were once, agree in the low BITS bits. */
#include <stdint.h>
#include <stdio.h>
#include <stdlib.h>

#define MULTIPLIER 0x9e3779b97f4a7c15ULL

static uint64_t folded(uint64_t a, uint64_t b) {
    unsigned __int128 product = (unsigned __int128)a * b;
    return (uint64_t)product ^ (uint64_t)(product >> 64);
}

/* Feeds a number of four bytes. */
static uint64_t fed(uint64_t state, uint64_t number) {
    return folded(state ^ (number | number << 32), MULTIPLIER ^ 8);
}

static uint64_t hash_of(uint64_t place_state, uint64_t variable) {
    uint64_t hash = fed(place_state, variable);
    return hash ^ hash >> 32;
}

int main(int argc, char **argv) {
    uint64_t count = argc > 1 ? strtoull(argv[1], NULL, 10) : 1000;
    uint64_t more = argc > 2 ? strtoull(argv[2], NULL, 10) : 1000;
    uint64_t mask = (1ULL << (argc > 3 ? atoi(argv[3]) : 8)) - 1;
    for (uint64_t i = 0; i < count; i++) printf("T%d|r(x%lu)|p%lu\n", (int)(i % 2), i, i);
    for (uint64_t place = 0; place < count; place++) {
        /* the place, no locks, a read */
        uint64_t state = fed(fed(fed(0x243f6a8885a308d3ULL, place), 0), 0);
        for (uint64_t variable = 0; variable < count; variable++) {
            if ((hash_of(state, variable) & mask) != 0) continue;
            if (more-- == 0) return 0;
            printf("T%d|r(x%lu)|p%lu\n", (int)(more % 2), variable, place);
        }
    }
    return 0;
}
