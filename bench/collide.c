/* Prints COUNT names of 12 letters whose SipHash-1-3 under zero keys, fed as a list of bytes is (its length in
 * eight bytes, then the bytes), agrees in its low BITS bits. */
#include <stdint.h>
#include <stdio.h>
#include <stdlib.h>
#include <string.h>

#define TURN(x, b) (((x) << (b)) | ((x) >> (64 - (b))))

static void round_of(uint64_t *v) {
    v[0] += v[1]; v[1] = TURN(v[1], 13); v[1] ^= v[0]; v[0] = TURN(v[0], 32);
    v[2] += v[3]; v[3] = TURN(v[3], 16); v[3] ^= v[2];
    v[0] += v[3]; v[3] = TURN(v[3], 21); v[3] ^= v[0];
    v[2] += v[1]; v[1] = TURN(v[1], 17); v[1] ^= v[2]; v[2] = TURN(v[2], 32);
}

static uint64_t hash_of(const unsigned char *text, size_t size) {
    uint64_t v[4] = {0x736f6d6570736575ULL, 0x646f72616e646f6dULL, 0x6c7967656e657261ULL, 0x7465646279746573ULL};
    size_t i;
    for (i = 0; i + 8 <= size; i += 8) {
        uint64_t m;
        memcpy(&m, text + i, 8);
        v[3] ^= m; round_of(v); v[0] ^= m;
    }
    uint64_t last = (uint64_t)size << 56;
    for (size_t k = 0; i + k < size; k++) last |= (uint64_t)text[i + k] << (8 * k);
    v[3] ^= last; round_of(v); v[0] ^= last;
    v[2] ^= 0xff;
    round_of(v); round_of(v); round_of(v);
    return v[0] ^ v[1] ^ v[2] ^ v[3];
}

int main(int argc, char **argv) {
    long wanted = argc > 1 ? atol(argv[1]) : 1000;
    int bits = argc > 2 ? atoi(argv[2]) : 13;
    uint64_t mask = (1ULL << bits) - 1;
    /* the length, then the name */
    unsigned char fed[21] = "\14\0\0\0\0\0\0\0aaaaaaaaaaaa";
    unsigned char *name = fed + 8;
    for (uint64_t n = 0; wanted > 0; n++) {
        uint64_t rest = n;
        for (int i = 0; i < 12; i++) { name[i] = 'a' + rest % 26; rest /= 26; }
        if ((hash_of(fed, 20) & mask) == 0) { puts((char *)name); wanted--; }
    }
    return 0;
}
