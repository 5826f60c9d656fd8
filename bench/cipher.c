#include <stdint.h>
#include <stdio.h>
#include <stdlib.h>

int main(int argc, char **argv) {
    long rounds = atol(argv[1]);
    const uint32_t key[4] = {0x00010203, 0x04050607, 0x08090a0b, 0x0c0d0e0f};
    const uint32_t delta = 0x9e3779b9;
    uint32_t first[32], second[32], next = 0x45464748, checksum = 0;
    int32_t seen = 0;
    (void)argc;
    for (uint32_t number = 0; number < 32; number++) {
        uint32_t sum = number * delta;
        first[number] = sum + key[sum & 3];
        sum += delta;
        second[number] = sum + key[sum >> 11 & 3];
    }
    for (long r = 0; r < rounds; r++) {
        uint32_t left = 0x41424344, right = next++;
        for (int32_t number = 0; number < 32; number++) {
            left += (((right << 4) ^ (right >> 5)) + right) ^ first[number];
            right += (((left << 4) ^ (left >> 5)) + left) ^ second[number];
        }
        checksum = (checksum * 31 + (left ^ right)) & 8388607;
        seen++;
        if (seen == 1000) {
            printf("%u\n", checksum);
            seen = 0;
        }
    }
    return 0;
}
